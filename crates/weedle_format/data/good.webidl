/// What is kept.
[Exposed=Window]
interface Store { // of a window
  readonly attribute unsigned long length;
  DOMString? item(unsigned long index);
};

Window includes Stores;
