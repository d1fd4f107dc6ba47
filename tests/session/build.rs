fn main() {
    lent::link("gorvask");
}
