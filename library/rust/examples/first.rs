use l6_store::{level_for, Fault, Store};

fn main() -> Result<(), Fault> {
    let mut store = Store::new(8)?;
    let level = level_for(5)?; // a block of 8 words
    if let Some(block) = store.get(level)? {
        store.write(block, 0, 1965)?;
        println!("place {block}, level {level}, holds {}", store.read(block, 0)?);
        store.free(block)?;
        println!("freed, joined {}", store.moves());
        println!("freed again: {:?}", store.free(block));
    }
    Ok(())
}
