public class Hello {
    private static final Greeting GREETING = new Greeting("hello ");

    public static void main(String[] words) {
        System.out.println(GREETING.to(words.length == 0 ? "world" : words[0]));
    }

    static int unused() {
        return 1;
    }
}
