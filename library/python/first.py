from l6_store import Store, StoreError, level_for

with Store(8) as store:
    level = level_for(5)  # a block of 8 words
    block = store.get(level)
    if block is not None:
        store.write(block, 0, 1965)
        print(f"place {block}, level {level}, holds {store.read(block, 0)}")
        store.free(block)
        print(f"freed, joined {store.moves()}")
        try:
            store.free(block)
        except StoreError as error:
            print(f"freed again: {error}")
