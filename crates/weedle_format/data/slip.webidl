interface Store {
  readonly attribute unsigned long length
};
