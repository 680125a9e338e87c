//! Points at the word of a policy that is at fault.

use oskhrein::Monitor;

fn main() {
    // apart(role 0, role 2), but of two roles the last is role 1
    let policy = [0x09000000, 0x02000000, 0x02000002];
    if let Err(refusal) = Monitor::open(2, 2, &policy, &[1, 2]) {
        println!("{refusal}");
        if let Some(place) = refusal.place() {
            match policy.get(place) {
                Some(word) => println!("the word is {word:#010x}"),
                None => println!("the words run out"),
            }
        }
    }
}
