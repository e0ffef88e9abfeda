// What a page may store: what the examples read.

[Exposed=Window]
interface Window : EventTarget {
  readonly attribute Storage sessionStorage;
  void open(optional DOMString url = "");
};

interface Storage {
  readonly attribute unsigned long length;
  DOMString? getItem(DOMString key);
};

enum Kind { "local", "session" };
Window includes WindowStorage;
