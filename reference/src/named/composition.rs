include!(concat!(env!("OUT_DIR"), "/composition.rs"));
