interface Window {
	readonly attribute Storage session	Storage;
};
