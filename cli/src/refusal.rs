//! What the number of a refusal means, in words for a controller. No refusal says that no transfer exists, and each says so.

pub mod nothing_found;
pub mod void_station;

use crate::wire::Refusal;

/// What no refusal says.
pub const NOT_SAID: &str = "this does not say that no transfer exists";

/// Returns the meaning of a refusal as one sentence. It fits a line, unless it names a void station.
pub fn short(refusal: Refusal) -> String {
    let gist = gist(refusal.number);
    match refusal.void.map(void_station::words) {
        None => format!("{gist}; {NOT_SAID}"),
        Some(void) => {
            format!("{gist}; the first void station is {void}; later ones may be void too; {NOT_SAID}")
        }
    }
}

/// Returns the meaning of a refusal in full.
pub fn words(refusal: Refusal) -> String {
    let row = match refusal.number {
        number @ (11 | 12) => row(number).into(),
        number => format!("{} ({NOT_SAID})", row(number)),
    };
    match refusal.void.map(void_station::words) {
        None => row,
        Some(void) => format!("{row}. Here the first void station is {void}"),
    }
}

/// Returns what to do about a refusal.
pub fn advice(number: u16) -> &'static str {
    meaning(number).map_or("keep the record and report it", |meaning| meaning.advice)
}

fn gist(number: u16) -> &'static str {
    meaning(number).map_or(UNKNOWN, |meaning| meaning.gist)
}

/// Returns the row of a number in the table of docs/FORMAT.md. The rows of 11 and 12 themselves say what they do not say.
fn row(number: u16) -> &'static str {
    meaning(number).map_or(UNKNOWN, |meaning| meaning.row)
}

const UNKNOWN: &str = "not a number of the table";

struct Meaning {
    gist: &'static str,
    row: &'static str,
    advice: &'static str,
}

fn meaning(number: u16) -> Option<&'static Meaning> {
    MEANINGS.get(usize::from(number).checked_sub(1)?)
}

/// The meanings of the numbers from 1 on.
static MEANINGS: [Meaning; 14] = [
    // 1
    Meaning {
        gist: "damaged, or not a question",
        row: "the record is damaged or not a question: wrong size, length or kind, job 0, way above 1, or \
              spare not 0",
        advice: "write the question again, with 'lambert-cli ask' or your own program",
    },
    // 2
    Meaning {
        gist: "a position is out of range",
        row: "a position component is not finite, or exceeds 2^40 km in size",
        advice: "give positions in km that are at most 2^40 (about 1.1e12) in size",
    },
    // 3
    Meaning {
        gist: "a distance from the centre is out of range",
        row: "a distance from the centre is below 1 km or above 2^40 km",
        advice: "give positions from 1 km to 2^40 km (about 1.1e12) from the centre",
    },
    // 4
    Meaning {
        gist: "mu is out of range",
        row: "the gravitational parameter is not finite, below 1 or above 2^60",
        advice: "give mu in km^3/s^2, from 1 to 2^60 (about 1.2e18)",
    },
    // 5
    Meaning {
        gist: "the time is out of range",
        row: "the time is not finite, below 1 s or above 2^40 s",
        advice: "give a time from 1 s to 2^40 s (about 35,000 years)",
    },
    // 6
    Meaning {
        gist: "more than 16 whole revolutions",
        row: "more than 16 whole revolutions were asked for",
        advice: "ask for at most 16 whole revolutions: more cannot be asked for",
    },
    // 7
    Meaning {
        gist: "the answer buffer is too small",
        row: "the answer buffer has fewer than 528 bytes",
        advice: "give the calling program a larger buffer",
    },
    // 8
    Meaning {
        gist: "the positions do not define a plane",
        row: "the two positions do not define a plane: they are equal, or on one line with the centre to \
              within about a millionth (2^-20) of a radian",
        advice: "recompute the positions for another time of departure or arrival",
    },
    // 9
    Meaning {
        gist: "the positions are too close together",
        row: "the chord is too short: the distance between the positions is below 1/1024 of half the \
              triangle's perimeter",
        advice: "recompute the positions for another time of departure or arrival",
    },
    // 10
    Meaning {
        gist: "the triangle is flat",
        row: "the triangle is flat: the two distances from the centre differ by the whole chord, as far as \
              an f64 can tell",
        advice: "recompute the positions for another time of departure or arrival",
    },
    // 11
    Meaning {
        gist: "nothing was found among the shapes searched",
        row: "nothing was found among the shapes searched. Searched were ellipses and, without whole \
              revolutions, the parabola and hyperbolas: x from -4095/4096 to 4 (with whole revolutions to \
              4095/4096) in steps of 1/4096. Every step has a flight time, and no two neighbouring steps \
              have times on different sides of the time asked for. This does not say that no transfer \
              exists: faster transfers than the search reaches may exist (without whole revolutions, \
              hyperbolas beyond x = 4), and slower ones (ellipses beyond the ends of the range), and two \
              nearly equal transfers may lie between two steps",
        advice: "change the time, ask for another number of revolutions, or try the other way round",
    },
    // 12
    Meaning {
        gist: "nothing was found in an incomplete search",
        row: "nothing was found, but at least one step of the search, a station, is void: it has no flight \
              time, so a transfer there would be missed. The search is incomplete, and nothing follows from \
              it. The record has the first void station in rising x and the reason. This does not say that \
              no transfer exists, nor that later stations have times",
        advice: "keep the question and report it: no such question is known",
    },
    // 13
    Meaning {
        gist: "more transfers than an answer can hold",
        row: "more than eight crossings were found, and an answer holds at most eight",
        advice: "keep the question and report it: no such question is known",
    },
    // 14
    Meaning {
        gist: "a velocity is not finite",
        row: "a velocity of at least one transfer is not finite",
        advice: "keep the question and report it: no such question is known",
    },
];

#[cfg(test)]
mod tests;
