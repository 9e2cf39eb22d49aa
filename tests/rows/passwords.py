"""Test cases for typed passwords. A password is one line of at most 1024 bytes. Its line feed, and one carriage return
before it, do not belong to the password."""

from request_format import NOTHING_TYPED, rejected, response, rows, typed

PROMPT = b"Password: "
PROMPT_AND_EMPTY = PROMPT + b"<empty>\n"

# A name; the typed lines; and the expected password or error, with the output and the number of lines left unread. At
# most 1026 bytes are read, including the line feed. The rest of a longer line is left unread.
ROWS = rows(
    "a password", "get_password",
    ("a line", typed("password"), response(out="password", stdout=PROMPT)),
    ("a line, and one more", typed("pppppppp", "more"), response(out="pppppppp", stdout=PROMPT, typed_left=1)),
    ("a space at the end, and a carriage return", typed("pass word \r"), response(out="pass word ", stdout=PROMPT)),
    ("two carriage returns", typed("a\r\r"), response(out="a\r", stdout=PROMPT)),
    ("a carriage return inside", typed("a\rb"), response(out="a\rb", stdout=PROMPT)),
    ("an empty line", typed(""), response(out="", stdout=PROMPT_AND_EMPTY)),
    ("only a carriage return", typed("\r"), response(out="", stdout=PROMPT_AND_EMPTY)),
    ("an empty line, and one more", typed("", "password"), response(out="", stdout=PROMPT_AND_EMPTY, typed_left=1)),
    ("1024 bytes", typed("a" * 1024), response(out="a" * 1024, stdout=PROMPT)),
    ("1024 bytes and a carriage return", typed("a" * 1024 + "\r"), response(out="a" * 1024, stdout=PROMPT)),
    *((name, typed(line), rejected("PasswordTooLong", stdout=PROMPT, typed_left=left)) for name, line, left in (
        ("1024 bytes, a carriage return, and more", "a" * 1024 + "\rb", 1), ("1025 bytes", "a" * 1025, 0),
        ("1025 bytes and a carriage return", "a" * 1025 + "\r", 1), ("1027 bytes", "a" * 1027, 1))),
    ("the end of the input", NOTHING_TYPED, rejected("EndOfInput", stdout=PROMPT)),
)
