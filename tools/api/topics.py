"""The crates of the API, and the topics of their calls, in the order of the pages."""
import re

# The crates that users import, each with a one-line description.
CRATES = {
    "chain_arena": "The arena of links, `ChainArena`: its own calls, its iterators and drains, and lists of calls as values.",
    "chain_traits": "The trait of arenas of links, `ChainArenaTrait`, and functions that are generic in the arena.",
    "chain_links": "Links, and the kinds of insertion.",
    "arena_traits": "The traits that all arenas share.",
    "arena_base": "The generational arena that `ChainArena` is built on.",
    "arena_ptr": "Pointer, index and generation types, and stacks of slots.",
    "arena_core": "What arenas require of pointers and of stacks of slots; results and errors.",
    "arena_pairs": "Calls on two chain arenas as values, with transfers of chains between them.",
    "surject_arena": "Keys in sets, with one value for each set: a union-find whose sets can be listed and shrunk.",
    "linked_lists": "Linked lists that share one arena, each with a handle that stays valid.",
    "run_queues": "Tasks in queues and wait lists, which take turns.",
    "documents": "Ordered documents that share one arena, each with a handle that stays valid.",
    "polygons": "Polygons over any arena of links, each a ring of corners.",
    "chain_lists": "Lists of items stored in any arena of links, as words of contracts, and `reserve`.",
    "chain_renumbering": "Canonical compression that returns the new pointer of each link.",
    "chain_examples": "The examples of the guide to proofs, over any arena of links.",
    "chain_arena_examples": "The examples of the guide to proofs on a named type.",
    "triangulation": "Triangulation of polygons with holes by ear clipping, with areas proved to add up.",
    "polygon_laws": "The signed area of a polygon, as a definition on its list of corners, with its laws.",
    "chain_commands": "The commands of the program, and its runs over a reader and a writer.",
    "chain_laws": "Laws about chains. Each is a function with an empty body: a call of it brings its clauses into a proof.",
}

# Modules that are public for the crates that link and move links, and are not for users.
INTERNAL = ("link_access", "walk_direction")

# The topics of calls, each with a pattern for their names. The first pattern that matches decides.
TOPICS = {
    "Insertion": r"insert\w*|entry_insert\w*|can_insert|start|begin|spawn|push_\w+|new_list|new_queue|new_document",
    "Lookups": r"contains|get|get_inx|get_inx_unwrap|get_\w*link\w*|get_key|get_val|are_\w+|find_\w+|in_same_set|same_polygon|len_key_set|key_set|current|next|prev|first|last|is_list|is_item|list_of|is_queue|is_task|queue_of|is_document|is_paragraph|document_of|is_range_without",
    "Writes of values": r"get_mut|get_\w*_mut|get_inx_mut\w*|replace(?!_arena)\w*|swap\w*|for_each\w*|arena_mut",
    "Walks and lists": r"iter\w*|advancer\w*|walk\w*|starts|chains|paragraphs|tasks",
    "Changes of chains": r"connect|break_\w+|exchange_\w+|reverse_\w+|move_\w+|splice_\w+|arrange_\w+|union|join|append|split\w*|exchange|reverse|wake_\w+",
    "Removal": r"remove\w*|invalidate|clear|drain\w*|cancel|all_removed\w*",
    "Compression": r"compress\w*|compactor|renumber|new_pointer|moved_document",
    "Transfers and copies": r"transfer\w*|clone\w*|try_clone",
    "Creation, size and capacity": r"new|empty|with_\w*|from_arena|capacity|max_capacity|len|is_empty|reallocate\w*|reserve\w*|set_max_capacity|backing|agrees|invariants|links_agree|all_in_\w+|each_in_\w+|replace_arena|redirected",
    "Generations": r"\w*generation",
    "Calls as values": r"apply\w*|run\w*",
}


def topic_of(name):
    """Returns the topic of a call."""
    return next((topic for topic, names in TOPICS.items() if re.fullmatch(names, name)), "Other calls")


def by_topic(calls):
    """Groups calls by topics, in the order of these. Few calls are one group without a topic."""
    if len(calls) < 9:
        return [("", calls)]
    groups = {}
    for it in calls:
        groups.setdefault(topic_of(it.item.name), []).append(it)
    return [(topic, groups[topic]) for topic in (*TOPICS, "Other calls") if topic in groups]
