package demo;

interface Shape {
    double area(int scale);

    class Square implements Shape {
        private final int side;
        Square(int side) { this.side = side; }
        public double area(int scale) { return (double) side * side * scale; }
    }
}
