"""Meanings of words that have no comment of their own, or one that needs the comment before it. By file and name."""

MEANINGS = {
    "crates/arena_core/specs/Invalidation.antt": {
        "value_within": "value in an `InvalidationResult`",
        "value_in": "value in an `InvalidationOption`",
    },
    "crates/arena_traits/specs/Arena.antt": {
        "with_counter": "the same arena with another counter",
        "with_maximum": "the same arena with another maximum",
        "entry_at": "entry in the slot at an index",
    },
    "crates/arena_traits/specs/Entries.antt": {
        "HasFreeCapacity": "fewer entries than the capacity",
        "index_of": "index of an entry",
        "entries": "entries of the slots, by ascending index",
    },
    "crates/chain_laws/specs/Chains.antt": {
        "AreDistinct": "no index is twice in a list",
        "items": "indexes of a chain",
        "prev_of": "index before, after a link",
        "next_of": "index before, after a link",
    },
    "crates/chain_laws/specs/Insertions.antt": {
        "MayInsert": "the links that a kind names exist and meet its requirement",
    },
    "crates/chain_laws/specs/Walks.antt": {
        "passes_ahead": "what a walker still passes",
    },
    "crates/chain_links/specs/ChainArena.antt": {
        "value_state": "`A.state` of a `ChainArena`",
    },
    "crates/chain_links/specs/Links.antt": {
        "link_view": "a link as contracts see it: its neighbors' indexes and its value",
    },
    "crates/chain_links/specs/CallEffects.antt": {
        "ReadsLinkAt": "outcome of `get_inx_link_no_gen`",
        "ReadsLinkNoGen": "outcome of `get_link_no_gen`",
        "RemovesLinkAt": "outcome of `remove_inx_link_no_gen`",
        "BreaksNext": "outcome of `break_next`: `IsDisconnected`, or no such neighbor",
        "AreMovedInTurn": "arenas between which `move_after` moves each link after the one before it",
    },
    "crates/chain_links/specs/Insertions.antt": {
        "InsertsAllowedLink": "outcome of `insert`",
    },
    "crates/chain_arena/specs/Effects.antt": {
        "IsExchange": "the whole state of a `ChainArena` after `exchange_next`",
        "IsCutAfter": "the same after `break_next`",
    },
    "crates/chain_arena/specs/Steps.antt": {
        "CompressCanonicalStep": "the step of `compress_canonical`",
    },
    "crates/chain_compaction/specs/PointerMoves.antt": {
        "ArePointerMoves": "all old pointers with the new ones",
    },
    "crates/chain_lists/specs/Lists.antt": {
        "InsertsItemBefore": "outcome of `insert_before`",
        "IsRing": "a list of items is a cyclic chain",
    },
    "crates/surject_arena/specs/SetCalls.antt": {
        "CountsKeys": "outcome of `len_key_set`",
        "ReadsValue": "outcome of `get_val`",
    },
}
