namespace a {
