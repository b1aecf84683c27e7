namespace a {
namespace b::c { int d; int e f; }
}
