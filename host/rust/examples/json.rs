//! `json FAMILY FILE..` prints the messages of recordings by name, as `neli_show json` does. FAMILY is the number of the
//! family of netlink, as 0 for routing and 16 for generic netlink. The numbers of families of generic netlink are learnt
//! first from all of a file.

use neli::consts::socket::NlFamily;
use neli::recording::Recording;
use neli::schema::Schema;
use std::error::Error;
use std::{env, fs};

fn main() -> Result<(), Box<dyn Error>> {
    let mut words = env::args().skip(1);
    let family = NlFamily::from(words.next().ok_or("usage: json FAMILY FILE..")?.parse::<i32>()?);
    let schema = Schema::built_in()?;
    for path in words {
        let recording = Recording::from_pcap(&fs::read(&path)?, family)?;
        for frame in recording.frames() {
            for message in schema.messages(family, &frame.bytes).map_while(Result::ok) {
                message.learn()?;
            }
        }
        for frame in recording.frames() {
            print!("{}", schema.datagram_json(family, &frame.bytes)?);
        }
    }
    Ok(())
}
