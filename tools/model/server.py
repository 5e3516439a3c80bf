"""The server: what it keeps of the messages that came, and what it sends for each."""

from collections import namedtuple

from .config import ERROR, Config, ConfigFault
from .lint import Text, report
from .places import ENCODINGS, end_of, place_of, told
from .programs import MARK
from .report import SYNTAX
from .text import MAX_BYTES, split
from .wire import (INTERNAL_ERROR, INVALID_PARAMS, INVALID_REQUEST, METHOD_NOT_FOUND, NULL, PARSE_ERROR, SERVER_NOT_INITIALIZED, Invalid,
                   NoJson, Notification, Number, Request, answer, call_of, failure, member, notification, read)

NAME, VERSION = "zutkrad", "0.1.0"
MOST_PROBLEMS = 1000
RULES_PAGE = "https://yamllint.readthedocs.io/en/stable/rules.html#"

# What the server waits for: to be initialized, the end of its work, and `exit`.
WAITING, RUNNING, STOPPED = "waiting", "running", "stopped"

# Why a text is not followed, as it is told.
_LOST = ": the text is not followed until it is opened again"
LOST_MEMORY, TOO_LARGE, BAD_CHANGE, MISSED = (cause + _LOST for cause in (
    "out of memory", "too large", "a change that cannot be made", "a message was not read"))

# What is told of faults.
NO_MEMORY = "out of memory"
NO_JSON = "the message is no JSON"
NO_REQUEST = "the message is no request and no notification"
IS_WAITING, IS_INITIALIZED, IS_STOPPED = "the server waits for initialize", "the server is initialized", "the server is shut down"
UNKNOWN_METHOD = "the server has no such method"
NO_PARAMS = "the params are no object"
BAD_SETTINGS = "a setting is of another type than it has"
UNREADABLE_CONFIG = "the file of the configuration cannot be read"
REFUSED_CONFIG = "the configuration is refused: "
BAD_HEADER = f"{NAME}: bad command\n"

# The request that the editor tells of changes of the files of configurations.
CONFIG_NAMES = [".yamllint", ".yamllint.yaml", ".yamllint.yml"]

# A document: its version as it came, its text, why it is lost or None, and by what it is judged, None where it is ignored.
Document = namedtuple("Document", "version text cause config")

# What the files of folders may say of a document beside the bytes of a configuration: nothing, that it is ignored, that a file cannot be
# read, or that all is as it was.
NO_FILE, IGNORED, UNREADABLE, SAME = "no file", "ignored", "unreadable", "same"

# How a server finds notifications that files may be others than they were.
TELL_OF_FILES = ("textDocument/didSave", "workspace/didChangeWatchedFiles", "workspace/didChangeWorkspaceFolders")


def whole_number(value):
    """A number from 0 on that fits 64 bits, or None."""
    if not isinstance(value, Number) or not value.digits.isdigit() or len(value.digits) > 20:
        return None
    number = int(value.digits)
    return number if number < 2 ** 64 else None


def _range(value):
    """The two places of a range, or None where it has another shape."""
    places = [tuple(whole_number(member(value, end, name)) for name in ("line", "character")) for end in ("start", "end")]
    return None if None in places[0] + places[1] else places


def _offset(rows, place):
    return sum(len(row.whole()) for row in rows[:place[0]]) + place[1]


def _changed_text(encoding, document, change):
    """The text that a change of a followed document makes, or one of the whole text, and why there is none."""
    text, where = member(change, "text"), member(change, "range")
    if not isinstance(text, str):
        return None, BAD_CHANGE
    if where is not None:
        places = _range(where)
        if places is None:
            return None, BAD_CHANGE
        if document.cause is not None:
            return None, document.cause
        rows = split(document.text)
        begin, end = (_offset(rows, place_of(encoding, rows, *place)) for place in places)
        if end < begin:
            return None, BAD_CHANGE
        text = document.text[:begin] + text + document.text[end:]
    return (text, None) if len(text.encode()) <= MAX_BYTES else (None, TOO_LARGE)


def changed(encoding, document, change, is_granted=True):
    """The document after one change, for which memory is granted or not."""
    text, cause = _changed_text(encoding, document, change)
    if cause is None and not is_granted:
        text, cause = None, LOST_MEMORY
    return document._replace(text=text, cause=cause)


def no_files(_, is_known):
    """What files say of a document where there are none."""
    return SAME if is_known else NO_FILE


def _watch_request():
    watchers = [{"globPattern": f"**/{name}"} for name in CONFIG_NAMES]
    registration = {"id": "configurations", "method": "workspace/didChangeWatchedFiles", "registerOptions": {"watchers": watchers}}
    return {"jsonrpc": "2.0", "id": "configurations", "method": "client/registerCapability", "params": {"registrations": [registration]}}


def _refused(fault):
    place = "" if fault.place is None else " at {}:{}".format(*fault.place)
    return REFUSED_CONFIG + fault.name + place


def _place(line, units):
    return {"line": Number(str(line)), "character": Number(str(units))}


def _message(words):
    return notification("window/showMessage", {"type": Number("1"), "message": words})


def _diagnostic(start, end, severity, code, message):
    return {"code": code, "message": message, "range": {"start": _place(*start), "end": _place(*end)},
            "severity": Number(str(severity)), "source": NAME}


class _BadSettings(Exception):
    """Settings set nothing, and this is told of them."""


class _NoMemory(Exception):
    """There was no memory for the configuration of settings."""


class Server:
    """The server after the messages so far. `files` gives the bytes of the file of a name, or None. `folders` gives what the files of
    folders say of the document of a URI: the bytes of a configuration, or one of the words above; whether the document was asked for since
    it was opened says whether `SAME` is an answer."""

    def __init__(self, files, folders=no_files):
        self.files, self.folders = files, folders
        self.phase = WAITING
        self.encoding = "utf-16"
        self.has_links = False
        self.most = MOST_PROBLEMS
        self.watches = False
        self.standard = Config.standard()
        # The configuration that settings name, and the name of its file, each None where they name none.
        self.config, self.file = None, None
        self.documents = {}
        self.status = None
        self.grants, self.asked = (), 0

    def came(self, body, grants=()):
        """The messages that are sent for a body. After `exit` the server has a status. `grants` say in turn whether memory is granted
        for a part of the work; past their end it is."""
        self.grants, self.asked = grants, 0
        try:
            call = call_of(read(body))
        except NoJson:
            return self._missed(PARSE_ERROR, NO_JSON)
        if isinstance(call, Invalid):
            return [failure(call.id, INVALID_REQUEST, NO_REQUEST)]
        if isinstance(call, Request):
            return self._request(call)
        return self._notification(call) if isinstance(call, Notification) else []

    def dropped(self):
        """The messages that are sent for a body for which there was no memory."""
        return self._missed(INTERNAL_ERROR, NO_MEMORY)

    def _missed(self, code, words):
        self.documents = {uri: old._replace(text=None, cause=MISSED) for uri, old in self.documents.items()}
        return [failure(NULL, code, words), *self._publications()]

    def _is_granted(self):
        self.asked += 1
        return self.asked > len(self.grants) or self.grants[self.asked - 1]

    # ------------------------------------------------------------- requests

    def _request(self, call):
        refusal = self._refusal(call)
        if refusal is not None:
            return [failure(call.id, *refusal)]
        if call.method == "shutdown":
            self.phase = STOPPED
            return [answer(call.id, NULL)]
        said = []
        try:
            self._set(member(call.params, "initializationOptions", NAME))
        except _NoMemory:
            return [failure(call.id, INTERNAL_ERROR, NO_MEMORY)]
        except _BadSettings as fault:
            said = [_message(str(fault))]
        self.phase = RUNNING
        self._take(call.params)
        sync = {"openClose": True, "change": Number("2"), "save": True}
        folders = {"workspaceFolders": {"supported": True, "changeNotifications": True}}
        result = {"capabilities": {"positionEncoding": self.encoding, "textDocumentSync": sync, "workspace": folders},
                  "serverInfo": {"name": NAME, "version": VERSION}}
        return [answer(call.id, result), *said]

    def _refusal(self, call):
        """The code of a request's fault and what is told of it, or None."""
        if self.phase == WAITING:
            if call.method != "initialize":
                return SERVER_NOT_INITIALIZED, IS_WAITING
            return None if isinstance(call.params, dict) else (INVALID_PARAMS, NO_PARAMS)
        if self.phase == STOPPED:
            return INVALID_REQUEST, IS_STOPPED
        if call.method == "initialize":
            return INVALID_REQUEST, IS_INITIALIZED
        return None if call.method == "shutdown" else (METHOD_NOT_FOUND, UNKNOWN_METHOD)

    def _take(self, params):
        """Takes what the editor can do."""
        names = member(params, "capabilities", "general", "positionEncodings")
        known = [name for name in names if name in ENCODINGS] if isinstance(names, list) else []
        self.encoding = known[0] if known else "utf-16"
        self.has_links = member(params, "capabilities", "textDocument", "publishDiagnostics", "codeDescriptionSupport") is True
        self.watches = member(params, "capabilities", "workspace", "didChangeWatchedFiles", "dynamicRegistration") is True

    # -------------------------------------------------------- notifications

    def _notification(self, call):
        if call.method == "exit":
            self.status = 0 if self.phase == STOPPED else 1
        if self.phase != RUNNING or call.params is None:
            return []
        if call.method == "workspace/didChangeConfiguration":
            return self._configured(member(call.params, "settings", NAME))
        if call.method == "initialized":
            return [_watch_request()] if self.watches else []
        if call.method in TELL_OF_FILES:
            return self._refreshed()
        uri = member(call.params, "textDocument", "uri")
        act = {"textDocument/didOpen": self._opened, "textDocument/didChange": self._changed,
               "textDocument/didClose": self._closed}.get(call.method)
        return act(uri, call.params) if act is not None and isinstance(uri, str) else []

    def _opened(self, uri, params):
        version, text = (member(params, "textDocument", name) for name in ("version", "text"))
        if not isinstance(version, Number) or not isinstance(text, str):
            return self._edited(uri, None, [NULL])
        config, words = (self.config, None) if self.config is not None else self._found(uri, False)
        if not self._is_granted():
            # What was open is not the editor's text any more, and what was not open does not become it.
            if uri not in self.documents:
                return [self._publication(uri), _message(NO_MEMORY)]
            document = self.documents[uri]._replace(text=None, cause=LOST_MEMORY)
        else:
            document = Document(version, None, None, self.standard if config is SAME else config)
            document = changed(self.encoding, document, {"text": text}, self._is_granted())
        return self._put(uri, document) + [_message(words)] * (words is not None)

    def _changed(self, uri, params):
        version, changes = member(params, "textDocument", "version"), member(params, "contentChanges")
        if not isinstance(version, Number):
            return self._edited(uri, None, [NULL])
        return self._edited(uri, version, changes if isinstance(changes, list) else [NULL])

    def _edited(self, uri, version, changes):
        """Makes changes of a document, if it is open, which then has this version or keeps its own."""
        if uri not in self.documents:
            return []
        document = self.documents[uri]
        if version is not None and not self._is_granted():
            return self._put(uri, document._replace(text=None, cause=LOST_MEMORY))
        document = document._replace(version=version or document.version)
        for change in changes:
            document = changed(self.encoding, document, change, self._is_granted())
        return self._put(uri, document)

    def _closed(self, uri, _):
        return [self._publication(uri)] if self.documents.pop(uri, None) is not None else []

    def _put(self, uri, document):
        self.documents[uri] = document
        return [self._publication(uri)]

    # ------------------------------------------------------------- settings

    def _configured(self, settings):
        """The messages that are sent for the settings of this program, or for none."""
        if settings is None:
            return []
        is_known = self.config is None
        try:
            self._set(settings)
        except _NoMemory:
            return [_message(NO_MEMORY)]
        except _BadSettings as fault:
            return [_message(str(fault))]
        if self.config is None:
            _, words = self._found_anew(is_known)
            return self._publications() + [_message(words)] * (words is not None)
        for uri in self.documents:
            self._judge(uri, self.config)
        return self._publications()

    def _refreshed(self):
        """The messages that are sent where files may be others than they were."""
        if self.file is not None:
            return self._configured({"configFile": self.file})
        if self.config is not None:
            return []
        is_changed, words = self._found_anew(True)
        return (self._publications() if is_changed else []) + [_message(words)] * (words is not None)

    def _judge(self, uri, config):
        """Judges a document by a configuration, or ignores it."""
        document = self.documents[uri]
        if config is not None and not self._is_granted() and document.cause is None:
            document = document._replace(text=None, cause=LOST_MEMORY)
        self.documents[uri] = document._replace(config=config)

    def _found_anew(self, is_known):
        """Judges each document by what is found for it: whether one is judged by another, and what is told of the first fault."""
        is_changed, told = False, None
        for uri in self.documents:
            config, words = self._found(uri, is_known)
            told = words if told is None else told
            if config is not SAME:
                is_changed = True
                self._judge(uri, config)
        return is_changed, told

    def _found(self, uri, is_known):
        """By what a document is judged as files say it, a configuration, None where it is ignored, or SAME, and what is told of a fault."""
        said = self.folders(uri, is_known)
        if said in (SAME, IGNORED, NO_FILE):
            return {SAME: SAME, IGNORED: None, NO_FILE: self.standard}[said], None
        if said == UNREADABLE:
            return SAME, UNREADABLE_CONFIG
        if not self._is_granted():
            return SAME, NO_MEMORY
        try:
            return Config.read(said.removeprefix(MARK)), None
        except ConfigFault as fault:
            return SAME, _refused(fault)

    def _set(self, settings):
        """Takes the settings of this program, where there are some."""
        if settings is None:
            return
        self.config, self.file, most = self._settings(settings)
        self.most = self.most if most is None else most

    def _settings(self, settings):
        """The configuration, the name of its file and the number of problems that are set, each None where it is not."""
        if not isinstance(settings, dict):
            raise _BadSettings(BAD_SETTINGS)
        config, name, most = (settings.get(word) for word in ("config", "configFile", "maxProblems"))
        number = whole_number(most)
        if not all(text is None or isinstance(text, str) for text in (config, name)) or (most is not None and number is None):
            raise _BadSettings(BAD_SETTINGS)
        data = None
        if config is not None:
            data = config.encode()
        elif name is not None:
            data = self.files(name)
            if data is None:
                raise _BadSettings(UNREADABLE_CONFIG)
            data = data.removeprefix(MARK)
        if data is None:
            return None, None, number
        if not self._is_granted():
            raise _NoMemory
        try:
            return Config.read(data), name if config is None else None, number
        except ConfigFault as fault:
            raise _BadSettings(_refused(fault)) from None

    # --------------------------------------------------------- publications

    def _publications(self):
        return list(map(self._publication, self.documents))

    def _publication(self, uri):
        params = {"uri": uri, "diagnostics": []}
        document = self.documents.get(uri)
        if document is not None:
            params["version"] = document.version
            params["diagnostics"] = [] if document.config is None else self._diagnostics(document)
        return notification("textDocument/publishDiagnostics", params)

    def _diagnostics(self, document):
        if document.cause is not None:
            return [_diagnostic((0, 0), (0, 0), 1, "lost", document.cause)]
        rows = split(document.text)
        problems = report(document.config, Text(document.text))
        shown = [self._shown(rows, problem) for problem in problems[:self.most]]
        more = len(problems) - len(shown)
        return shown + [_diagnostic((0, 0), (0, 0), 3, "more", f"{more} more problems")] * (more > 0)

    def _shown(self, rows, problem):
        line, column = problem.line - 1, problem.column - 1
        end = end_of(problem.rule, rows[line].text, column)
        start, end = (told(self.encoding, rows, line, at) for at in (column, end))
        diagnostic = _diagnostic(start, end, 1 if problem.level == ERROR else 2, problem.rule, problem.message)
        if self.has_links and problem.rule != SYNTAX:
            diagnostic["codeDescription"] = {"href": RULES_PAGE + problem.rule}
        return diagnostic
