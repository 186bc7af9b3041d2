class Greeting {
    private final String front;
    int count;

    Greeting(String front) {
        this.front = front;
    }

    String to(String name) {
        return front + name;
    }

    int size() {
        return front.length();
    }
}
