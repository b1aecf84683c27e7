int a; namespace n {
	consteval {
		consteval { }
	}
}
