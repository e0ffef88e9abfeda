"""What idl_proofs.py and spellings.py write, of parts that declarations and contracts say."""
