"""Tera's template engine, proved: an `Engine` takes templates, and renders them with data.

    with hovdreg.Engine() as engine:
        engine.add({"hello.html": "Hello {{ name | upper }}!"})
        print(engine.render("hello.html", {"name": "<world>"}))     # Hello &lt;WORLD&gt;!

The shared object `libhovdreg.so` lies beside this module, or in the folder that the environment variable `HOVDREG_LIB` names.
"""
import ctypes
import enum
import json
import os
import threading
import weakref

__all__ = ["Engine", "ErrorKind", "TemplateError"]

# Statuses; all others are for want of memory here.
DONE, FAULT, NO_ENGINE = 0, 1, 3


class ErrorKind(enum.IntEnum):
    """What kind of error a call met."""

    SYNTAX_ERROR = 1
    MESSAGE = 2
    RENDERING_ERROR = 3
    CIRCULAR_EXTEND = 4
    CIRCULAR_INCLUDE = 5
    MISSING_PARENT = 6
    TEMPLATE_NOT_FOUND = 7
    COMPONENT_NOT_FOUND = 8
    INVALID_ARGUMENT = 9
    MISSING_ARGUMENT = 10
    OUT_OF_MEMORY = 11


class TemplateError(Exception):
    """Why a call made nothing. Its text is all that is told: the place, the line with marks below it, and where it was called from.

    `kind` is an `ErrorKind`, and `message` what is wrong, without its place where that is told apart: in a syntax error and a rendering
    error `file` is a template's name, `start` and `end` are bytes of its text, `line` and `column` begin at 1. In others these are None.
    """

    def __init__(self, kind, message, words, file=None, start=None, end=None, line=None, column=None):
        super().__init__(kind, message, words, file, start, end, line, column)
        self.kind = ErrorKind(kind)
        self.message = message
        self.words = words
        self.file = file
        self.start = start
        self.end = end
        self.line = line
        self.column = column

    def __str__(self):
        return self.words


class _Handle(ctypes.Structure):
    _fields_ = [("at", ctypes.c_void_p)]


class _Answer(ctypes.Structure):
    _fields_ = [("status", ctypes.c_uint32), ("size", ctypes.c_size_t)]


class _Options(ctypes.Structure):
    _fields_ = [("is_plain", ctypes.c_uint32), ("takes_floats", ctypes.c_uint32), ("has_clock", ctypes.c_uint32), ("seconds", ctypes.c_int64)]


class _Report(ctypes.Structure):
    _fields_ = [("kind", ctypes.c_uint32), ("has_span", ctypes.c_uint32)] + [
        (name, ctypes.c_size_t) for name in ("start", "end", "line", "column")
    ]


_ENGINE = ctypes.POINTER(_Handle)
_TEXT = [ctypes.c_char_p, ctypes.c_size_t]
_ROOM = [ctypes.c_void_p, ctypes.c_size_t]
# What each function takes behind the engine.
_FUNCTIONS = {
    "tera_new": [ctypes.POINTER(_Options)],
    "tera_free": [],
    "tera_put_template": _TEXT * 2,
    "tera_add": [],
    "tera_put": _TEXT,
    "tera_drop_waiting": [],
    "tera_autoescape_on": [],
    "tera_set_fallback_prefixes": [],
    "tera_set_delimiters": _TEXT * 6,
    "tera_put_globals": _TEXT,
    "tera_render": _TEXT * 2,
    "tera_render_block": _TEXT * 3,
    "tera_render_text": _TEXT * 2 + [ctypes.c_uint32],
    "tera_render_component": _TEXT * 4 + [ctypes.c_uint32] * 2,
    "tera_template_names": [],
    "tera_component_names": [],
    "tera_template_variables": _TEXT,
    "tera_copy": [ctypes.c_size_t] + _ROOM,
    "tera_report": [ctypes.POINTER(_Report)],
    "tera_copy_words": _ROOM,
    "tera_copy_message": _ROOM,
    "tera_copy_file": _ROOM,
}


def _path():
    """Where the shared object lies."""
    name = "libhovdreg.so"
    folders = [os.path.dirname(os.path.abspath(__file__)), os.environ.get("HOVDREG_LIB")]
    for folder in filter(None, folders):
        if os.path.exists(os.path.join(folder, name)):
            return os.path.join(folder, name)
    raise ImportError(f"there is no {name} beside hovdreg.py, nor in the folder that HOVDREG_LIB names: docs/BINDINGS.md tells how it is made")


def _load():
    library = ctypes.CDLL(_path())
    for name, arguments in _FUNCTIONS.items():
        function = getattr(library, name)
        function.argtypes = [_ENGINE] + arguments
        function.restype = None if name == "tera_free" else _Answer
    return library


_library = _load()
# What json.dumps makes for each call, made once.
_encoder = json.JSONEncoder(ensure_ascii=False, allow_nan=False, separators=(",", ":"))


def _texts(*texts):
    """Each text in UTF-8 with its size."""
    return [part for text in texts for part in _text(text)]


def _text(text):
    if not isinstance(text, str):
        raise TypeError(f"a text is wanted, and not {text!r}")
    encoded = text.encode()
    return encoded, len(encoded)


def _listed(texts):
    """Each text of a list by itself, as _texts makes it."""
    if isinstance(texts, str):
        raise TypeError(f"a list of texts is wanted, and not {texts!r}")
    return [_texts(text) for text in texts]


def _data(values):
    """The object of JSON that a context spells."""
    return "{}" if values is None else _encoder.encode(values)


class Engine:
    """An engine that takes templates, and renders them with data.

    Data are dictionaries of what `json.dumps` takes. After any error the engine is as before the call. Threads may share an engine, and
    wait for one another; those that have engines of their own render at the same time.

    `is_plain`: templates have the filters of the language alone, and none of docs/FILTERS.md. `takes_floats`: floats become their texts;
    else such data is refused. `clock`: what the function `now` tells, in seconds since the start of 1970, as long as the engine lives;
    without it there is no such function.
    """

    def __init__(self, *, is_plain=False, takes_floats=False, clock=None):
        self._handle = _Handle()
        self._lock = threading.Lock()
        # It frees the engine when this object goes. At the end of the program a thread may still render, so it does not free it then.
        self._free = weakref.finalize(self, _library.tera_free, self._handle)
        self._free.atexit = False
        options = _Options(is_plain, takes_floats, clock is not None, int(clock or 0))
        self._done(_library.tera_new(self._handle, options))

    def __enter__(self):
        return self

    def __exit__(self, *_):
        self.close()

    def close(self):
        """Frees the engine. It can't be used any more; a second call is harmless."""
        with self._lock:
            self._free()

    def add(self, templates):
        """Adds templates, all or none, each in the place of one with its name: a dictionary of texts by name."""
        pairs = [_texts(name, text) for name, text in templates.items()]
        self._hand_over(_library.tera_put_template, pairs, _library.tera_add)

    def autoescape_on(self, suffixes):
        """Templates escape whose names end with one of these, and no others. At first these are .html, .htm and .xml."""
        self._hand_over(_library.tera_put, _listed(suffixes), _library.tera_autoescape_on)

    def fallback_prefixes(self, prefixes):
        """A name that no template has is looked for behind each of these, the first one first. Templates are added afterwards."""
        self._hand_over(_library.tera_put, _listed(prefixes), _library.tera_set_fallback_prefixes)

    def delimiters(self, *, block=("{%", "%}"), variable=("{{", "}}"), comment=("{#", "#}")):
        """Tags are told from text by these delimiters. Templates are added afterwards."""
        texts = _texts(*block, *variable, *comment)
        with self._lock:
            self._done(_library.tera_set_delimiters(self._handle, *texts))

    def globals(self, values):
        """Every rendering reads these values where its own data has none of their name. Those that were given before stay, or have their new
        value."""
        text = _texts(_data(values))
        with self._lock:
            self._done(_library.tera_put_globals(self._handle, *text))

    def render(self, name, values=None):
        """The text of a template."""
        return self._made_text(_library.tera_render, *_texts(name, _data(values)))

    def render_block(self, name, block, values=None):
        """The text of a block, from a rendering of the whole template."""
        return self._made_text(_library.tera_render_block, *_texts(name, block, _data(values)))

    def render_text(self, text, values=None, *, autoescape=True):
        """What a text renders to that the engine does not keep. It may include templates and call components, but has no parent and no block."""
        return self._made_text(_library.tera_render_text, *_texts(text, _data(values)), bool(autoescape))

    def render_component(self, name, arguments=None, implicits=None, *, body=None, autoescape=True):
        """The text of a component. Parameters as @lang are looked up in `implicits`. The body is put out as it is, and never escaped."""
        texts = _texts(name, _data(arguments), _data(implicits), body or "")
        return self._made_text(_library.tera_render_component, *texts, body is not None, bool(autoescape))

    def template_names(self):
        """The names of the templates, in byte order."""
        return self._made_names(_library.tera_template_names)

    def component_names(self):
        """The names of the components, in byte order."""
        return self._made_names(_library.tera_component_names)

    def variables(self, name):
        """The names that a template wants to find in its data, in byte order."""
        return self._made_names(_library.tera_template_variables, *_texts(name))

    def _hand_over(self, put, parts, call):
        """Lets each part wait, and calls what takes them. Where memory is refused between them, or the program interrupted, those before would
        go into a later list. So they are dropped."""
        with self._lock:
            try:
                for part in parts:
                    self._done(put(self._handle, *part))
                self._done(call(self._handle))
            except BaseException:
                _library.tera_drop_waiting(self._handle)
                raise

    def _made_text(self, call, *arguments):
        with self._lock:
            answer = call(self._handle, *arguments)
            self._done(answer)
            return self._copied(_library.tera_copy, 0, size=answer.size)

    def _made_names(self, call, *arguments):
        with self._lock:
            answer = call(self._handle, *arguments)
            self._done(answer)
            return [self._copied(_library.tera_copy, index) for index in range(answer.size)]

    def _done(self, answer):
        """Raises why the call did not do what it was asked for."""
        if answer.status == DONE:
            return
        if answer.status == FAULT:
            raise self._error()
        if answer.status == NO_ENGINE:
            raise ValueError("the engine is closed")
        raise TemplateError(ErrorKind.OUT_OF_MEMORY, "out of memory", "out of memory")

    def _error(self):
        """Why the last call made nothing."""
        report = _Report()
        _library.tera_report(self._handle, report)
        message, words = self._copied(_library.tera_copy_message), self._copied(_library.tera_copy_words)
        if not report.has_span:
            return TemplateError(report.kind, message, words)
        file = self._copied(_library.tera_copy_file)
        return TemplateError(report.kind, message, words, file, report.start, report.end, report.line or None, report.column or None)

    def _copied(self, copy, *index, size=None):
        """A text, whose size an empty room asks for where it is not known."""
        if size is None:
            size = copy(self._handle, *index, ctypes.create_string_buffer(1), 0).size
        room = ctypes.create_string_buffer(max(size, 1))
        self._done(copy(self._handle, *index, room, size))
        return room.raw[:size].decode()
