import java.io.*;
import javax.tools.*;

/** Compiles each line of standard input as the arguments of a javac, in one process. */
public class Compile {
    public static void main(String[] args) throws IOException {
        BufferedReader in = new BufferedReader(new InputStreamReader(System.in, "UTF-8"));
        JavaCompiler javac = ToolProvider.getSystemJavaCompiler();
        for (String line = in.readLine(); line != null; line = in.readLine())
            if (javac.run(null, null, null, line.split("\t")) != 0) System.exit(1);
    }
}
