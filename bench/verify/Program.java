import java.io.IOException;
import java.nio.file.Files;
import java.nio.file.Path;
import java.util.Map;
import java.util.concurrent.TimeUnit;

/** Runs the program on folders of its own. */
final class Program {
    private final String program;
    private final Path folder;

    Program(String program, Path folder) throws IOException {
        this.program = program;
        this.folder = folder;
        Files.createDirectories(folder);
    }

    private Path place(Path at, String name) throws IOException {
        Path file = at.resolve(name + ".class");
        Files.createDirectories(file.getParent());
        return file;
    }

    /** What the program says of a main class, where these classes stand beside it and one is replaced. */
    Verdict judge(String main, Map<String, byte[]> classes, String name, byte[] bytes) throws IOException, InterruptedException {
        Path at = folder.resolve(main.replace('/', '_'));
        if (!Files.exists(at)) {
            for (Map.Entry<String, byte[]> entry : classes.entrySet()) {
                Files.write(place(at, entry.getKey()), entry.getValue());
            }
        }
        Files.write(place(at, name), bytes);
        try {
            return run(at, main);
        } finally {
            Files.write(place(at, name), classes.get(name));
        }
    }

    private Verdict run(Path at, String main) throws IOException, InterruptedException {
        Path said = folder.resolve("said");
        Process process = new ProcessBuilder(program, "run", "--steps", "1", at.toString(), main.replace('/', '.'))
            .redirectInput(ProcessBuilder.Redirect.from(Path.of("/dev/null").toFile()))
            .redirectOutput(ProcessBuilder.Redirect.DISCARD).redirectError(said.toFile()).start();
        if (!process.waitFor(60, TimeUnit.SECONDS)) {
            process.destroyForcibly();
            return new Verdict(Verdict.Kind.OTHER, "", -1, "cbvm: no answer in a minute");
        }
        String line = Files.readString(said).lines().reduce("", (before, last) -> last);
        return Verdict.ofLine(process.exitValue(), line.isEmpty() ? "status " + process.exitValue() : line);
    }
}
