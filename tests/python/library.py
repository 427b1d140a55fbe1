"""The calls of the library for C (include/markdown.h), by `ctypes`."""
import ctypes
import struct

# Statuses.
OK, ROOM, UTF8, FLAGS, MEMORY = 0, 1, 2, 3, 5
# A link: offset, line and column of its start and of its end, its event, where its destination begins and its size, its definition,
# its kind, and what fills it up.
LINK = struct.Struct("=QQQQQQQQQQB7x")
KINDS = ("link", "image", "autolink", "literal", "definition")
NO_DEFINITION = (1 << 64) - 1
# A heading: offset, line and column of its start and of its end, its event, where its text begins and its size, the same of its
# slug, its rank, and what fills it up.
HEADING = struct.Struct("=QQQQQQQQQQQB7x")
# An event: offset, line, column, name, whether it is an exit, columns of a tab, and what fills it up.
EVENT = struct.Struct("=QQQHBBI")


class Library:
    """A shared library, with a buffer for texts and an array for events, which grow."""

    def __init__(self, path):
        self.calls = ctypes.CDLL(str(path))
        self.used = ctypes.c_size_t()
        self.buffer = ctypes.create_string_buffer(1 << 16)
        self.array = ctypes.create_string_buffer(EVENT.size << 12)

    def filled(self, name, data, options, buffer, size):
        """What a call writes into a buffer of items of this size, and the buffer, or a larger one if it was too small."""
        given = [data, ctypes.c_size_t(len(data))] + ([] if options is None else [ctypes.byref(options)])
        call = getattr(self.calls, name)
        while True:
            status = call(*given, buffer, ctypes.c_size_t(len(buffer) // size), ctypes.byref(self.used))
            if status != ROOM:
                break
            buffer = ctypes.create_string_buffer(self.used.value * size * 2)
        if status != OK:
            raise ValueError(f"{name}: status {status}")
        return ctypes.string_at(buffer, self.used.value * size), buffer

    def page(self, text, options):
        data, self.buffer = self.filled("markdown_convert_with", text.encode(), options, self.buffer, 1)
        return data.decode()

    def events(self, data, options):
        """The events of bytes, each as EVENT has its fields."""
        return list(EVENT.iter_unpack(self.packed_events(data, options)))

    def packed_events(self, data, options):
        found, self.array = self.filled("markdown_list_events_with", data, options, self.array, EVENT.size)
        return found

    def page_by_numbers(self, text, constructs, switches, line_ending):
        data, numbers = text.encode(), (ctypes.c_uint64(constructs), ctypes.c_uint32(switches), ctypes.c_uint32(line_ending))
        given = data, ctypes.c_size_t(len(data)), *numbers, self.buffer, ctypes.c_size_t(len(self.buffer)), ctypes.byref(self.used)
        status = self.calls.markdown_convert_by_numbers(*given)
        if status != OK:
            raise ValueError(f"markdown_convert_by_numbers: status {status}")
        return ctypes.string_at(self.buffer, self.used.value).decode()

    def links_in(self, data, options, room, bytes_room):
        """The status of a call that lists links into room for so many, with so many bytes for where they lead; how many there are,
        and their bytes; and what was written, up to its end."""
        array, buffer = ctypes.create_string_buffer(room * LINK.size + 1), ctypes.create_string_buffer(bytes_room + 1)
        count, size = ctypes.c_size_t(), ctypes.c_size_t()
        into = array, ctypes.c_size_t(room), ctypes.byref(count), buffer, ctypes.c_size_t(bytes_room), ctypes.byref(size)
        status = self.calls.markdown_list_links_with(data, ctypes.c_size_t(len(data)), ctypes.byref(options), *into)
        return status, count.value, size.value, array.raw, buffer.raw

    def links(self, text, options):
        """The links of a text, a line each: kind, start and end as line:column@offset, where it leads, and the index of its definition."""
        data, lines = text.encode(), []
        _, room, bytes_room, _, _ = self.links_in(data, options, 0, 0)
        status, count, _, array, buffer = self.links_in(data, options, room, bytes_room)
        if status != OK or count != room:
            raise ValueError(f"markdown_list_links_with: status {status}")
        for it in LINK.iter_unpack(array[: count * LINK.size]):
            start, end = f"{it[1]}:{it[2]}@{it[0]}", f"{it[4]}:{it[5]}@{it[3]}"
            leads = buffer[it[7] : it[7] + it[8]].decode()
            lines.append(f"{KINDS[it[10]]} {start} {end} {leads}" + (f" #{it[9]}" if it[9] != NO_DEFINITION else ""))
        return "\n".join(lines)

    def outline_in(self, data, options, room, bytes_room):
        """What `links_in` returns, of headings, with their texts and slugs."""
        array, buffer = ctypes.create_string_buffer(room * HEADING.size + 1), ctypes.create_string_buffer(bytes_room + 1)
        count, size = ctypes.c_size_t(), ctypes.c_size_t()
        into = array, ctypes.c_size_t(room), ctypes.byref(count), buffer, ctypes.c_size_t(bytes_room), ctypes.byref(size)
        status = self.calls.markdown_list_outline_with(data, ctypes.c_size_t(len(data)), ctypes.byref(options), *into)
        return status, count.value, size.value, array.raw, buffer.raw

    def outline(self, text, options):
        """The headings of a text, a line each: start and end as line:column@offset, rank as a number of `#`, text and slug."""
        data, lines = text.encode(), []
        _, room, bytes_room, _, _ = self.outline_in(data, options, 0, 0)
        status, count, _, array, buffer = self.outline_in(data, options, room, bytes_room)
        if status != OK or count != room:
            raise ValueError(f"markdown_list_outline_with: status {status}")
        for it in HEADING.iter_unpack(array[: count * HEADING.size]):
            start, end = f"{it[1]}:{it[2]}@{it[0]}", f"{it[4]}:{it[5]}@{it[3]}"
            title, slug = (buffer[at : at + size].decode() for at, size in (it[7:9], it[9:11]))
            lines.append(f"{start} {end} {'#' * it[11]} {title} (#{slug})")
        return "\n".join(lines)

    def slugs(self, text, options):
        """The slugs of the headings of a text, in order."""
        data = text.encode()
        _, room, bytes_room, _, _ = self.outline_in(data, options, 0, 0)
        _, count, _, array, buffer = self.outline_in(data, options, room, bytes_room)
        return [buffer[it[9] : it[9] + it[10]].decode() for it in HEADING.iter_unpack(array[: count * HEADING.size])]

    def sanitized(self, html, options):
        data, self.buffer = self.filled("markdown_sanitize_with", html.encode(), options, self.buffer, 1)
        return data.decode()

    def made(self, name, text):
        """What `markdown_decode` or `markdown_normalize_label` makes of a text."""
        data, self.buffer = self.filled(name, text.encode(), None, self.buffer, 1)
        return data.decode()

    def is_safe(self, page):
        data, safe = page.encode(), ctypes.c_uint32()
        status = self.calls.markdown_check_page(data, ctypes.c_size_t(len(data)), ctypes.byref(safe))
        return status == OK and safe.value == 1
