// Asks for the kind of a fair set of messages, from Rust.

unsafe extern "C" {
    fn neltobur_message_kind(message: *const u8, length: usize) -> u32;
}

// The length of each kind's messages; there is no kind 0.
const LENGTHS: [usize; 11] = [0, 41, 41, 9, 9, 65, 17, 9, 9, 9, 1];

fn kind(message: &[u8]) -> u32 {
    // SAFETY: a slice's pointer is not null, and its bytes can be read while it is borrowed.
    unsafe { neltobur_message_kind(message.as_ptr(), message.len()) }
}

fn ask(first: u8, length: usize) {
    let mut message = [0; 66];
    message[0] = first;
    println!("first byte {first} of {length}: {}", kind(&message[..length]));
}

fn main() {
    for number in 1..=10 {
        let length = LENGTHS[usize::from(number)];
        ask(number, length);
        ask(number, length - 1);
        ask(number, length + 1);
    }
    ask(0, 0);
    ask(0, 1);
    ask(0, 41);
    ask(11, 1);
    ask(11, 9);
    ask(255, 65);
    ask(1, 9);
    ask(3, 41);
}
