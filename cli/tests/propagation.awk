# awk -f cli/tests/propagation.awk CSV
#
# Reads the output of 'lambert-cli show --csv --questions' and flies every transfer by a plain integration of r'' = -mu r/|r|^3. Exits
# with status 1 at the first transfer whose lowest point, perigee, apogee, eccentricity, inclination, miss or surface disagrees.
# Refusals are not flown. The transfers should be like those of missions: with numbers from anywhere in the allowed ranges, some are so
# sensitive that rounding spoils the integration.
#
# The integration is a Runge-Kutta method of order 6 (Butcher's, with 7 stages). A step is a part of sqrt(r^3/mu), so a revolution has
# about 2 pi/part steps. The part is halved until the arrival changes by less than FINE of |r2|, or down to SHORTEST. The error that
# is left is smaller than the last change, by a factor of 63 if the steps are short. So the tolerance of a number is its last change
# and, for rounding, ROUNDING of the number; the miss is taken as a part of |r2|. If the arrival still changes by more than COARSE of
# |r2|, the flight is too sensitive to judge. That is a failure if it happens to more than 1 in 20 transfers.

BEGIN {
    FINE = 1e-8; COARSE = 1e-4; ROUNDING = 1e-9; SHORTEST = 1 / 128
    PI = atan2(0, -1)
}

{ sub(/\r$/, "") }

NR == 1 {
    fields($0)
    for (i = 1; i <= count; i++) column[cell[i]] = i
    needed = "job revision outcome transfer r1_x_km r1_y_km r1_z_km r2_x_km r2_y_km r2_z_km mu_km3_s2 time_s v1_x_km_s v1_y_km_s"
    needed = needed " v1_z_km_s perigee_km apogee_km lowest_km miss_r2_m inclination_deg eccentricity below_surface radius_km"
    total = split(needed, names, " ")
    for (i = 1; i <= total; i++) if (!(names[i] in column)) fail("there is no column " names[i])
    next
}

{ fields($0) }

cell[column["outcome"]] == "answered" {
    transfer = "line " NR ", job " text("job") ", revision " text("revision") ", transfer " text("transfer")
    transfers++
    read_plane()
    check_shape()
    fly_finer()
    if (change > COARSE * r2) {
        sensitive++
    } else {
        check_flight()
        check_surface()
    }
}

END {
    if (failed) exit 1
    if (!transfers) fail("there are no transfers")
    if (sensitive > transfers / 20) fail(sensitive " of " transfers " transfers are too sensitive to judge")
    print transfers - sensitive " transfers agree with the integration, " sensitive + 0 " are too sensitive to judge"
}

# Splits a line of CSV into cell[1] to cell[count].
function fields(line,    i, quoted, parts, n) {
    count = 0
    n = split(line, parts, ",")
    for (i = 1; i <= n; i++) {
        if (quoted) cell[count] = cell[count] "," parts[i]
        else cell[++count] = parts[i]
        if (gsub(/"/, "\"", parts[i]) % 2) quoted = !quoted
    }
}

function text(name) { return cell[column[name]] }

function number(name) {
    if (text(name) !~ /^-?[0-9]/) fail(transfer ": " name " is '" text(name) "', not a number")
    return text(name) + 0
}

function fail(words) {
    print "propagation.awk: " words >"/dev/stderr"
    failed = 1
    exit 1
}

# Fails unless a number of the row is the expected one.
function expect(name, found, expected, tolerance) {
    if (!(distance(found - expected, 0, 0) <= tolerance))
        fail(transfer ": " name sprintf(" is %.15g, but the integration gives %.15g (tolerance %.2g)", found, expected, tolerance))
}

function distance(a, b, c) { return sqrt(a * a + b * b + c * c) }

# Flies the transfer with finer and finer steps. Sets the numbers of the last flight and their last changes.
function fly_finer(    part) {
    fly(1 / 16)
    for (part = 1 / 32; part >= SHORTEST; part /= 2) {
        end_x = x; end_y = y; low = lowest; inner = perigee; outer = apogee
        fly(part)
        change = distance(x - end_x, y - end_y, 0)
        if (change <= FINE * r2) break
    }
}

# Reads the transfer in the plane of its motion: r1 is (r1, 0), v1 is (v1_x, v1_y), and r2 is (r2_x, r2_y), r2_z outside the plane.
function read_plane(    a, b, c, d, e, f, g, h, i, p, q, s) {
    a = number("r1_x_km"); b = number("r1_y_km"); c = number("r1_z_km")
    d = number("v1_x_km_s"); e = number("v1_y_km_s"); f = number("v1_z_km_s")
    g = number("r2_x_km"); h = number("r2_y_km"); i = number("r2_z_km")
    mu = number("mu_km3_s2")
    r1 = distance(a, b, c); r2 = distance(g, h, i)
    a /= r1; b /= r1; c /= r1
    p = b * f - c * e; q = c * d - a * f; s = a * e - b * d
    v1_x = a * d + b * e + c * f
    v1_y = distance(p, q, s)
    p /= v1_y; q /= v1_y; s /= v1_y
    inclination = atan2(distance(p, q, 0), s) * 180 / PI
    r2_x = a * g + b * h + c * i
    r2_y = (q * c - s * b) * g + (s * a - p * c) * h + (p * b - q * a) * i
    r2_z = p * g + q * h + s * i
}

function fly(part,    left, h, before) {
    x = r1; y = 0; u = v1_x; v = v1_y
    lost_x = lost_y = lost_u = lost_v = perigee = apogee = 0
    r = lowest = r1
    left = number("time_s")
    while (left > 0) {
        before = x * u + y * v
        h = part * r * sqrt(r / mu)
        if (h >= left) h = left
        step(h)
        left -= h
        r = sqrt(x * x + y * y)
        if (r < lowest) lowest = r
        if ((before < 0) != (x * u + y * v < 0)) turn(h)
    }
    if (perigee && perigee < lowest) lowest = perigee
}

# Sets the perigee or apogee that was passed in the last step. A step goes back to about there. A circular orbit has neither.
function turn(h,    back, found, x0, y0, u0, v0, x1, y1, u1, v1) {
    back = -radial() / radial_rate()
    if (back > 0 || back < -2 * h) return
    x0 = x; y0 = y; u0 = u; v0 = v; x1 = lost_x; y1 = lost_y; u1 = lost_u; v1 = lost_v
    step(back)
    found = sqrt(x * x + y * y) - radial() ^ 2 / (2 * radial_rate())
    if (radial_rate() < 0) apogee = found
    else perigee = found
    x = x0; y = y0; u = u0; v = v0; lost_x = x1; lost_y = y1; lost_u = u1; lost_v = v1
}

function radial() { return (x * u + y * v) / sqrt(x * x + y * y) }

# Returns the rate of the radial speed. It is never 0, so that it can divide.
function radial_rate(    s, rate) {
    s = x * x + y * y
    rate = ((x * v - y * u) ^ 2 / s - mu / sqrt(s)) / sqrt(s)
    return rate == 0 ? 1e-300 : rate
}

# Moves the state by one step. The stages are written with their accelerations a to g. What a sum loses by rounding is kept for the
# next step, because over thousands of steps it adds up.
function step(h,    k, p, q, s, ax, ay, bx, by, cx, cy, dx, dy, ex, ey, fx, fy, gx, gy) {
    s = x * x + y * y; s = -mu / (s * sqrt(s)); ax = s * x; ay = s * y
    k = h / 3
    p = x + k * u; q = y + k * v
    s = p * p + q * q; s = -mu / (s * sqrt(s)); bx = s * p; by = s * q
    k = h * h / 18
    p += k * (2 * ax - bx); q += k * (2 * ay - by)
    s = p * p + q * q; s = -mu / (s * sqrt(s)); dx = s * p; dy = s * q
    k = 2 * h / 3
    p = x + k * (u + h / 3 * ax); q = y + k * (v + h / 3 * ay)
    s = p * p + q * q; s = -mu / (s * sqrt(s)); cx = s * p; cy = s * q
    k = h / 16
    p = x + h / 2 * (u + k * (11 * ax - 8 * bx + cx)); q = y + h / 2 * (v + k * (11 * ay - 8 * by + cy))
    s = p * p + q * q; s = -mu / (s * sqrt(s)); ex = s * p; ey = s * q
    p = x + h / 2 * (u + k * (9 * ax + 2 * bx - cx - 6 * dx)); q = y + h / 2 * (v + k * (9 * ay + 2 * by - cy - 6 * dy))
    s = p * p + q * q; s = -mu / (s * sqrt(s)); fx = s * p; fy = s * q
    k = h / 22
    p = x + h * (u + k * (9 * cx - 3 * (ax + bx) + 24 * dx - 16 * ex))
    q = y + h * (v + k * (9 * cy - 3 * (ay + by) + 24 * dy - 16 * ey))
    s = p * p + q * q; s = -mu / (s * sqrt(s)); gx = s * p; gy = s * q
    k = h / 120
    p = h * (u + k * (11 * ax + 27 * cx + 54 * dx - 16 * (ex + fx))) - lost_x
    q = h * (v + k * (11 * ay + 27 * cy + 54 * dy - 16 * (ey + fy))) - lost_y
    s = x; x += p; lost_x = (x - s) - p
    s = y; y += q; lost_y = (y - s) - q
    p = k * (11 * (ax + gx) + 81 * (cx + dx) - 32 * (ex + fx)) - lost_u
    q = k * (11 * (ay + gy) + 81 * (cy + dy) - 32 * (ey + fy)) - lost_v
    s = u; u += p; lost_u = (u - s) - p
    s = v; v += q; lost_v = (v - s) - q
}

# Checks what follows from r1 and v1 without a flight: the inclination and the eccentricity.
function check_shape(    expected) {
    expect("inclination_deg", number("inclination_deg"), inclination, 1e-6)
    expected = distance(r1 * v1_y * v1_y / mu - 1, r1 * v1_x * v1_y / mu, 0)
    expect("eccentricity", number("eccentricity"), expected, ROUNDING * (1 + expected))
}

# Checks the arrival and the distances that the flight met. The lowest point may be r2, which the flight misses.
function check_flight(    missed) {
    missed = distance(x - r2_x, y - r2_y, r2_z)
    expect("miss_r2_m", number("miss_r2_m"), 1000 * missed, 1000 * (change + ROUNDING * r2))
    expect("lowest_km", number("lowest_km"), lowest, change_of(lowest, low) + missed)
    if (perigee) expect("perigee_km", number("perigee_km"), perigee, change_of(perigee, inner))
    if (apogee) expect("apogee_km", number("apogee_km"), apogee, change_of(apogee, outer))
    if (perigee && apogee) expect("eccentricity", number("eccentricity"), (apogee - perigee) / (apogee + perigee), 1e-6)
}

function change_of(now, before) { return distance(now - before, 0, 0) + ROUNDING * now }

# Checks whether the flight is below the surface. If the lowest point is on the surface as far as it is known, both words are right.
function check_surface(    radius, below) {
    if (text("radius_km") == "") return
    radius = number("radius_km")
    below = text("below_surface")
    if (below !~ /^(true|yes|1|false|no|0)$/) fail(transfer ": below_surface is '" below "'")
    if (distance(lowest - radius, 0, 0) <= change_of(lowest, low) + number("miss_r2_m") / 1000) return
    if ((below ~ /^(true|yes|1)$/) != (lowest < radius))
        fail(transfer ": below_surface is " below ", but the lowest point is " lowest " km and the radius is " radius " km")
}
