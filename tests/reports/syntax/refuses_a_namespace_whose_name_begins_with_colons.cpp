int a; namespace ::b { }
