"""FORMAT.md: Sets of cells. A member is a Cell whose lists are its parts of the set's lists."""
from dataclasses import replace

from sec_cell import LINKS, NODES, NODES_MOST, SCRATCH, Cell, ask_limits, ask_lists, belongs, renumber
from sec_numbers import ask
from sec_walks import LEFT, NO_NODE, Lookup, fill, is_sound, walk_from

MEMBERS_MOST = 9


def ask_set_limits(members):
    ask(len(members) > MEMBERS_MOST or sum(m.counts[NODES] for m in members) > NODES_MOST, 14)
    for member in members:
        ask_limits(member)


def ask_set_lists(members, *places):
    """The set's lists: a size below its count (a part here has its own memory, so the rest can't happen)."""
    for place in places:
        for member in members:
            ask_lists(member, place)


def member_of_area(members, area):
    return next((i for i, m in enumerate(members) if m.own_area() == area), None)


def member_named(members, i, area):
    """Which member a link names."""
    return i if belongs(members[i].own_area(), area) else member_of_area(members, area)


def set_join(members, cell, sizes):
    """ynd_set_join: the number of members (room behind the other parts is always there)."""
    ask(member_of_area(members, cell.own_area()) is not None, 18)
    ask_set_limits([*members, cell])
    ask_set_lists(members, *range(5))
    for place in range(5):
        ask(len(cell.lists[place]) < cell.counts[place] or not cell.counts[place] <= sizes[place] < 1 << 32, 7, place)
    parts = [cell.there(place) + [None] * (sizes[place] - cell.counts[place]) for place in range(5)]
    members.append(Cell(parts, cell.vft, cell.vehicles, cell.peds, cell.unk, list(cell.counts)))
    return len(members)


def set_leave(members, area):
    at = member_of_area(members, area)
    ask(at is None, 13)
    ask_set_limits(members)
    ask_set_lists(members, *range(5))
    del members[at]
    return len(members)


def set_renumber(members, i, new_places, scratch=SCRATCH):
    """Renumbering a member: also the links of the other members that name it."""
    ask(i >= len(members), 13)
    ask_set_limits(members)
    ask_set_lists(members, *range(5))
    naming = [(m.lists[LINKS], at) for other, m in enumerate(members) if other != i
              for at, link in enumerate(m.there(LINKS)) if member_named(members, other, link.area) == i]
    numbers = renumber(members[i], new_places, scratch)
    for links, at in naming:
        links[at] = replace(links[at], number=numbers.get(links[at].number, links[at].number))


def crossing_from(members, member, place, choices):
    """Crossing walks: the end and the visits, each a member and a place."""
    visited = [(member, place)]
    while True:
        end, places = walk_from(members[member], place, choices)
        visited += [(member, p) for p in places[1:]]
        if end[0] != LEFT:
            return end, visited
        choices = choices[len(places):]
        member = member_of_area(members, end[1])
        if member is None:
            return end, visited
        place = Lookup(members[member])(end[2])
        if place is None:
            return (NO_NODE, 0, 0), visited
        visited.append((member, place))


def set_crossing_walk(members, member, place, choices, lent):
    ask(member >= len(members), 13)
    ask(place >= members[member].counts[NODES], 13)
    ask_set_limits(members)
    ask_set_lists(members, NODES, LINKS)
    end, visited = crossing_from(members, member, place, choices)
    fill(lent, visited, 8)
    return end, len(visited)


def set_follow_round(members, version, area, caller_member, number, choices, lent):
    """Rounds in a set."""
    ask(version not in (1, 2), 15)
    member = member_of_area(members, area) if version == 2 else caller_member
    ask(member is None, 19)
    ask(member >= len(members), 13)
    ask_set_limits(members)
    ask_set_lists(members, *range(5))
    start = Lookup(members[member])(number)
    ask(start is None, 13)
    end, visited = crossing_from(members, member, start, choices)
    fill(lent, visited, 8)
    return end, len(visited)


def set_sound(members, scratch=SCRATCH):
    """Sound sets: yes or no."""
    ask_set_limits(members)
    ask_set_lists(members, NODES, LINKS, 4)
    ask(scratch < SCRATCH, 7, 6)
    numbers = [{n.number for n in m.there(NODES)} for m in members]
    for i, m in enumerate(members):
        nodes = m.there(NODES)
        links_had = [link for n in nodes for link in m.links_of(n)]
        if nodes and not is_sound(nodes, links_had, m.there(4), numbers[i]):
            return False
        for link in links_had:
            named = member_named(members, i, link.area)
            if named is not None and link.number not in numbers[named]:
                return False
    return True
