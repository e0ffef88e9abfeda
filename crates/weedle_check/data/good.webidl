// What a page may store.

Window includes Stores;
	Stores implements Kept;
