//! The sweeps of prioritised indices: every set of systems under several maps, every way to end a hold and every one
//! that must not, on the global index and on those of hosts at the ends of words.

use crate::generate::steps::steps;
use crate::generate::{Script, INDEXED};
use crate::model::indexed::Index;

pub fn situations() -> Vec<Script> {
    let mut scripts = vec![ends(), every_host(), served(), smallest(), modes()];
    scripts.extend(MAPS.map(every_set));
    let indices = [0, 31, 32, 39].map(Index::Host);
    scripts.extend(indices.into_iter().chain([Index::Global]).map(holds));
    scripts
}

/// A part with prioritised indices, all its hosts and systems enabled, and some steps.
fn opening(systems: u32, channels: u32, hosts: u32, text: &str) -> Script {
    let mut script = Script::new(INDEXED, &[systems, channels, hosts, 0x4E82_0000, 1]);
    for word in 0..systems.div_ceil(32) {
        steps!(script: "ENABLE{word}=FFFFFFFF");
    }
    for word in 0..hosts.div_ceil(32) {
        steps!(script: "HOST_ENABLE{word}=FFFFFFFF");
    }
    steps!(script: "GLOBAL=1 {text}");
    script
}

/// Channels of four systems and hosts of four channels, as the words of their maps. Channel and number pull the same
/// way, against each other, or both ways; a host has one channel, two, or all; channels have one host, or each its own.
const MAPS: [(u32, u32); 6] = [
    (0x0302_0100, 0x0000_0000),
    (0x0001_0203, 0x0001_0001),
    (0x0100_0100, 0x0001_0100),
    (0x0200_0101, 0x0000_0101),
    (0x0000_0000, 0x0000_0001),
    (0x0103_0003, 0x0100_0001),
];

/// Each set of status and enables of four systems, polled on two hosts and across them with the mode off; in turn the
/// hosts, and all of them, are disabled too.
fn every_set((channels, hosts): (u32, u32)) -> Script {
    let mut script = Script::with(INDEXED, &[4, 4, 2, 0, 1], "CONTROL=0");
    steps!(script: "CHANNELS0={channels:x} HOSTS0={hosts:x}");
    for enables in 0..16 {
        steps!(script: "DISABLE0=F ENABLE0={enables:x}");
        for set in 0..16 {
            steps!(script: "CLEAR0=F SET0={set:x} HOST_ENABLE0={} GLOBAL={}", set % 4, set % 3);
            script.steps("INDEX HOST_INDEX0 HOST_INDEX1 HOST_INDEX2");
        }
    }
    script
}

/// The first and the last system, channel and host of the largest part.
fn ends() -> Script {
    let mut script = opening(1_024, 256, 256, "CONTROL=0");
    let changes = "; 1023+; CHANNELS255=FF000000; HOSTS63=FF000000; 0+; CHANNELS0=FF; HOSTS63=0
        ; ICLEAR=0; ICLEAR=3FF; ISET=1F; ISET=20; ISET=FF; ISET=100; ISET=1FF; ISET=200; ISET=3E0";
    for change in changes.split(';') {
        steps!(script: "{change} INDEX HOST_INDEX0 HOST_INDEX255 HOST_INDEX256");
    }
    script
}

/// Every host's index is held, and the holds are ended by the words of host enables, one by one, and by the mode.
fn every_host() -> Script {
    let hosts: String = (0..256).map(|host| format!("HOST_INDEX{host} ")).collect();
    let read_all = format!("{hosts} INDEX");
    let mut script = opening(64, 256, 256, "HOSTS0=FF01 40+");
    steps!(script: "{read_all} ICLEAR=28 3+ {read_all}");
    for word in 0..8 {
        steps!(script: "HOST_ENABLE{word}={:x}", 0x8000_0001_u32 | 1 << word);
    }
    script.steps(&read_all);
    for host in [0, 1, 127, 128, 254, 255] {
        steps!(script: "HOST_INDEX{host}=FFFFFFFF IHOST_OFF={:x}", 255 - host);
    }
    steps!(script: "{read_all} CONTROL=FFFFFFEF CONTROL=10 {read_all}");
    script
}

/// The maker's service sequence on three systems of a host, first by the host's index and then by the global one, with
/// the mode as a reset leaves it (001, table 1-2).
fn served() -> Script {
    let mut script = opening(12, 3, 2, "CONTROL CHANNELS0=02010002 HOSTS0=101");
    for index in ["HOST_INDEX1", "INDEX"] {
        script.steps("0+ 0- 3+ 3- 2+ 2-");
        for served in [2, 3, 0] {
            steps!(script: "IHOST_OFF=1 {index} ICLEAR={served} {index} IHOST_ON=1");
        }
        steps!(script: "{index} 1+ {index} CONTROL=0 {index} ICLEAR=1 1- {index} CONTROL=10");
    }
    script
}

/// One system, one channel and one host.
fn smallest() -> Script {
    let mut script = opening(1, 1, 1, "");
    for index in ["INDEX", "HOST_INDEX0", "HOST_INDEX1"] {
        steps!(script: "{index} ISET=0 {index} {index}=0 {index}");
        steps!(script: "ICLEAR=0 {index} IHOST_ON=0 {index}");
    }
    script
}

/// Control with every bit alone and with all but one, with something held and with nothing.
fn modes() -> Script {
    let mut script = opening(8, 2, 2, "ISET=5");
    let values = (0..32).flat_map(|bit| [1 << bit, !(1 << bit)]);
    for value in values.chain([0, 0, u32::MAX, u32::MAX]) {
        steps!(script: "INDEX HOST_INDEX0 CONTROL={value:x} CONTROL ISET=3 INDEX HOST_INDEX1");
        steps!(script: "INDEX={value:x} HOST_INDEX1={value:x} ICLEAR=3");
    }
    script
}

/// Each thing that ends a hold of some index, and each that does not. System 20 is the one that may be held. `own` is
/// the index, of a host `n` (`h` in hexadecimal), whose bit is in a word of host enables; `next` is another host, `far`
/// another word.
const WAYS: &str =
    "{own}=0; {own}=FFFFFFFF; {beside}=0; INDEX=0; HOST_INDEX{n}=5; HOST_INDEX{next}=5
    ; HOST_INDEX40=5; IHOST_ON={h}; IHOST_OFF={h}; IHOST_ON={other}; IHOST_OFF={other}
    ; IHOST_ON=28; IHOST_OFF=28; IHOST_ON=1{h}; IHOST_OFF=800000{h}
    ; HOST_ENABLE{word}={bit}; HOST_ENABLE{word}=FFFFFFFF; HOST_ENABLE{word}={not}
    ; HOST_ENABLE{word}=0; HOST_ENABLE{far}={bit}; HOST_ENABLE{far}=FFFFFFFF
    ; HOST_ENABLE1=FFFFFF00; HOST_ENABLE1=100; HOST_ENABLE2=FFFFFFFF
    ; CONTROL=0; CONTROL=FFFFFFEF; CONTROL=10; CONTROL=FFFFFFFF; GLOBAL=0; GLOBAL=1
    ; ICLEAR=14; ISET=14; CLEAR0=FFFFFFFF; SET0=FFFFFFFF; IDISABLE=14; IENABLE=14
    ; DISABLE0=FFFFFFFF; ENABLE0=FFFFFFFF; CHANNELS5=2; HOSTS0=131313; HOSTS0=280000
    ; 20+ 20-; 40+; CLEAR0; HOST_INDEX{next}; @0=0";

/// The same of an index; the global one has its systems on host 7.
fn ways(index: Index) -> String {
    let (own, beside, host) = match index {
        Index::Global => ("INDEX".to_owned(), 0x081, 7),
        Index::Host(host) => (format!("HOST_INDEX{host}"), 0x901 + 4 * host, host),
    };
    let (next, bit) = ((host + 1) % 40, 1_u32 << (host % 32));
    let names = [
        ("{own}", own),
        ("{beside}", format!("@{beside:x}")),
        ("{n}", host.to_string()),
        ("{h}", format!("{host:02x}")),
        ("{next}", next.to_string()),
        ("{other}", format!("{next:x}")),
        ("{word}", (host / 32).to_string()),
        ("{far}", ((host / 32) ^ 1).to_string()),
        ("{bit}", format!("{bit:x}")),
        ("{not}", format!("{:x}", !bit)),
    ];
    let named = |text: String, (name, is): &(&str, String)| text.replace(name, is);
    names.iter().fold(WAYS.to_owned(), named)
}

/// Every way, on a hold that begins with none or with system 20, and with the host disabled or enabled before it.
/// Between the beginning and the way a system becomes pending that comes before all others.
fn holds(index: Index) -> Script {
    let mut script = opening(40, 3, 40, "");
    let (own, another, host) = match index {
        Index::Global => ("INDEX".to_owned(), "HOST_INDEX7", 7),
        Index::Host(host) => (format!("HOST_INDEX{host}"), "INDEX", host),
    };
    let (word, hosts) = (host / 32, host | host << 8 | (39 - host) << 16);
    for begun in ["", "20+"] {
        for enabled in [0, u32::MAX] {
            for way in ways(index).split(';') {
                steps!(script: "CHANNELS0=0 CHANNELS5=1 HOSTS0={hosts:x} ENABLE0=FFFFFFFF");
                steps!(script: "HOST_ENABLE{word}={enabled:x} {begun} {own} {own} 2+ {another}");
                steps!(script: "{way} {own} CONTROL CONTROL=0 20- 2- CLEAR0=FFFFFFFF CONTROL=10");
            }
        }
    }
    script
}
