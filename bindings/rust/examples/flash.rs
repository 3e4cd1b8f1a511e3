//! The flash of a drum of ethanol and water: `cargo run --example flash`.

mod ethanol_water;

use zektonk::{tp_flash, Flash, Kelvin, Options, Pascal, Phases};

fn main() -> Result<(), Box<dyn std::error::Error>> {
    let book = ethanol_water::ethanol_water()?;
    let temperature = Kelvin(351.44);
    for pressure in [70_000.0, 90_000.0, 120_000.0, 600_000.0] {
        print!("{} K, {pressure} Pa: ", temperature.0);
        match tp_flash(&book, [0.5, 0.5], temperature, Pascal(pressure), Options::default()) {
            Ok(flash) => println!("{}", describe(&flash)),
            Err(refusal) => println!("refused with {refusal}"),
        }
    }
    Ok(())
}

fn describe(flash: &Flash) -> String {
    match &flash.phases {
        Phases::Liquid(x) => format!("liquid {x:?}"),
        Phases::Vapor(y) => format!("vapor {y:?}"),
        Phases::Both { liquid, vapor } => {
            format!("vapor fraction {}, liquid {liquid:?}, vapor {vapor:?}", flash.vapor_fraction)
        }
        other => format!("{other:?}"),
    }
}
