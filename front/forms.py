"""Forms as a browser sends them: a map from names to texts, and to bytes where a file was chosen. None is no form."""

import email.message
import urllib.parse

# The most fields that a form has here.
MOST_FIELDS = 1000


def fields_of_form(body):
    """The fields of `application/x-www-form-urlencoded`."""
    try:
        return dict(urllib.parse.parse_qsl(body.decode("ascii"), keep_blank_values=True, errors="strict", max_num_fields=MOST_FIELDS))
    except ValueError:
        return None


def fields_of_parts(body, boundary, file_name):
    """The fields of `multipart/form-data` with this boundary. A file is chosen under one name at most."""
    if not boundary or len(boundary) > 70 or not boundary.isascii():
        return None
    line = b"\r\n--" + boundary.encode("ascii")
    first, *parts = (b"\r\n" + body).split(line, MOST_FIELDS)
    # Before the first line and after the last there is nothing of the form.
    if first or not parts or not parts[-1].startswith(b"--"):
        return None
    fields = {}
    for part in parts[:-1]:
        head, found, content = part.partition(b"\r\n\r\n")
        if not found or not part.startswith(b"\r\n"):
            return None
        try:
            name, is_file = _name_of(head)
            if is_file and name != file_name:
                return None
            fields[name] = content if is_file else content.decode("utf-8")
        except ValueError:
            return None
    return fields


def _name_of(head):
    """The name of a part by the lines of its head, and whether a file was chosen for it."""
    for line in head.decode("utf-8").split("\r\n"):
        key, _, value = line.partition(":")
        if key.strip().lower() == "content-disposition":
            told = email.message.Message()
            told["Content-Disposition"] = value.strip()
            name = told.get_param("name", header="content-disposition")
            if told.get_content_disposition() == "form-data" and isinstance(name, str):
                return name, bool(told.get_filename())
    raise ValueError("a part without a name")
