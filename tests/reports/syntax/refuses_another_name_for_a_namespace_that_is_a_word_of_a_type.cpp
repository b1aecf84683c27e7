int a; namespace b = int;
