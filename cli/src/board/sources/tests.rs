use super::*;
use std::os::unix::fs::symlink;
use std::os::unix::net::UnixListener;

#[test]
fn what_is_not_a_plain_file_is_told_apart() {
    let folder = std::env::temp_dir().join(format!("lambert-cli-folder-{}", std::process::id()));
    let path = |name: &str| folder.join(name);
    fs::create_dir_all(path("b")).expect("a folder");
    let _socket = UnixListener::bind(path("d")).expect("a socket");
    symlink("/dev/null", path("a")).expect("a link to a device");
    symlink("gone", path("z")).expect("a link to nothing");
    symlink("y", path("c")).expect("a link to a file");
    ["y", ".hidden"].iter().for_each(|name| fs::write(path(name), b"").expect("a file"));
    let found = content_of(folder.to_str().expect("a name"));
    fs::remove_dir_all(&folder).expect("the folder can be removed");
    let (files, others) = found.expect("the folder can be read");
    assert_eq!(files, ["c", "y", "z"].map(path));
    assert_eq!(others, [(path("a"), "device"), (path("b"), "folder"), (path("d"), "socket")]);
}
