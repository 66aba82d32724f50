//! Prints the tag of "password" with the salt "somesaltsomesalt" by Argon2id: tag M T P. `bench/program` times it, and the same
//! program over the crate `argon2` 0.6.0.

use argon2::{Argon2, Params};
use std::env;
use std::error::Error;

fn main() -> Result<(), Box<dyn Error>> {
    let costs = env::args().skip(1).map(|word| word.parse());
    let costs: Vec<u32> = costs.collect::<Result<_, _>>()?;
    let [m_cost, t_cost, p_cost] = costs[..] else {
        return Err("usage: tag M T P".into());
    };
    let mut tag = [0; 32];
    let params = Params::new(m_cost, t_cost, p_cost, None)?;
    Argon2::from(params).hash_password_into(b"password", b"somesaltsomesalt", &mut tag)?;
    for byte in tag {
        print!("{byte:02x}");
    }
    println!();
    Ok(())
}
