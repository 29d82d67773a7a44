"""Which edits one check tries: those by which no function falls but their own, each in a copy of its function where that has one."""
import contextlib

from copies import copy_of, has_copy
from edit import changed


class Group:
    """Edits that one check tries: each as it is or in a copy of its function, so that none brings down a function of another."""

    def __init__(self, texts):
        self.texts = self.edited = texts
        self.edits, self.functions, self.reach, self.of_tables, self.copied = [], set(), set(), set(), set()

    def takes(self, edit):
        """Takes an edit in, if it can: in a copy of its function where that has one, else in place."""
        made = None if self.of_tables & edit.functions else copy_of(edit, self.texts, len(self.edits))
        if made:
            self.copied |= edit.functions
            self.edits.append(made)
            return True
        own = edit.reach
        # (a copy reads the tables that its function reads)
        if self.functions & own or self.reach & edit.functions or (edit.is_wide and self.copied & own):
            return False
        with contextlib.suppress(ValueError):  # (an earlier one takes its text away)
            self.edited = changed(self.edited, edit.changes)
            self.functions, self.reach = self.functions | edit.functions, self.reach | own
            self.of_tables |= own if edit.is_wide else set()
            self.edits.append(edit)
            return True
        return False


def groups_of(edits, texts, count):
    """The edits in so many groups, and in further ones where those don't take them.

    An edit in place goes to the first group that takes it, since what calls its function, and is tried beside it, is checked again. One in a
    copy goes where its neighbours are, as long as there is room: what one check tries rests on the same modules then, which it loads once. One of
    a table comes last: no group that has such a one takes copies of what reads the table."""
    groups, room = [Group(texts) for _ in range(count)], -(-len(edits) // count)
    for edit in sorted(edits, key=lambda it: (it.is_wide, has_copy(it, texts), it.changes[0][0], min(it.functions), it.name)):
        in_order = sorted(groups, key=lambda it: len(it.edits) >= room) if has_copy(edit, texts) else groups
        if not any(it.takes(edit) for it in in_order):
            groups.append(Group(texts))
            groups[-1].takes(edit)
    return [it.edits for it in groups]
