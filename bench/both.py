"""Input and output of a pair run under `java`, with all classes verified, for forge.py and edited.py."""
from pathlib import Path

JAVA = '''
import java.io.*; import java.net.*; import java.nio.file.*; import java.util.*;
public class Both {
    static String run(String folder, String main) throws Exception {
        ByteArrayOutputStream bytes = new ByteArrayOutputStream();
        PrintStream before = System.out;
        System.setOut(new PrintStream(bytes, true));
        String[] end = {"hangs"};
        try (URLClassLoader loader = new URLClassLoader(new URL[] {new File(folder).toURI().toURL()}, null)) {
            Thread thread = new Thread(() -> {
                try {
                    Class.forName(main, true, loader).getMethod("main", String[].class).invoke(null, (Object) new String[0]);
                    end[0] = "ends";
                } catch (java.lang.reflect.InvocationTargetException e) {
                    end[0] = e.getCause() instanceof LinkageError ? "fault " + e.getCause() : "throws " + e.getCause().getMessage();
                } catch (Throwable e) { end[0] = "fault " + e; }
            });
            thread.setDaemon(true); thread.start(); thread.join(5000);
        } finally { System.setOut(before); }
        return end[0] + " " + bytes;
    }
    public static void main(String[] words) throws Exception {
        BufferedReader in = new BufferedReader(new InputStreamReader(System.in));
        for (String line; (line = in.readLine()) != null; ) {
            String[] part = line.split(" ");
            String first = run(part[0], part[2]), second = run(part[1], part[2]);
            System.out.println(first.equals(second) ? "same" : ("differ " + first + " / " + second).replace('\\n', '|'));
        }
        System.exit(0);
    }
}
'''


def tree(top):
    return {str(it.relative_to(top)): it.read_bytes() for it in sorted(Path(top).rglob('*')) if it.is_file()}


def put(top, files):
    for path, data in files.items():
        target = Path(top, path)
        target.parent.mkdir(parents=True, exist_ok=True)
        target.write_bytes(data)
