"""FORMATS.md, section 3, Ids (stores, pass 4), and section 4: the image of the stores."""

from .faults import Refused, refuse_least
from .little_endian import two_bytes

MARK_WITH_GUID, MARK_WITHOUT_GUID = b"HVS2", b"HVS1"


def check(form_set):
    """Tell the least fault of pass 4: a store of whatever kind with the id 0 or that of an earlier one."""
    earlier = {0}
    found = []
    for store in form_set.stores:
        if store.id in earlier:
            found.append((store.node.place, 34))
        earlier.add(store.id)
    refuse_least(found)


def read_image(form_set, image):
    """The bytes of each store with bytes by place. The first field that is cut short or has other bytes is told."""
    at = 0

    def take(size, cause, *good):
        """The next field of so many bytes, which has one of the good values if any are asked for."""
        nonlocal at
        taken = image[at:at + size]
        if len(taken) < size:
            raise Refused(54, at)
        if good and taken not in good:
            raise Refused(cause, at)
        at += size
        return taken

    declared = form_set.stores_with_bytes
    mark = take(4, 50, MARK_WITH_GUID, MARK_WITHOUT_GUID)
    if mark == MARK_WITH_GUID:
        take(16, 56, form_set.guid)
    take(2, 51, two_bytes(len(declared)))
    found = []
    for store in declared:
        take(2, 52, two_bytes(store.id))
        take(2, 53, two_bytes(store.size))
        found.append(take(store.size, None))
    if at < len(image):
        raise Refused(55, at)
    return tuple(found)


def written_image(form_set, stores):
    """The image of the bytes of the stores, in the form that has the GUID."""
    declared = form_set.stores_with_bytes
    image = MARK_WITH_GUID + form_set.guid + two_bytes(len(declared))
    for store, held in zip(declared, stores):
        image += two_bytes(store.id) + two_bytes(store.size) + held
    return image


def read_field(stores, field):
    """The bytes of a field."""
    return stores[field.store][field.offset:field.offset + field.width]


def with_field(stores, field, held):
    """The stores with other bytes in a field."""
    old = stores[field.store]
    new = old[:field.offset] + held + old[field.offset + field.width:]
    return stores[:field.store] + (new,) + stores[field.store + 1:]
