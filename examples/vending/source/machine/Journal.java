package machine;

/** What a technician reads. */
final class Journal {
    private static int lines;

    static void put(String text, int number) {
        lines++;
        System.out.println("    journal " + lines + ": " + text + " " + number);
    }
}
