import java.io.IOException;
import java.nio.file.Files;
import java.nio.file.Path;
import java.util.ArrayList;
import java.util.Arrays;
import java.util.HashMap;
import java.util.List;
import java.util.Map;
import java.util.Random;
import java.util.Set;
import java.util.TreeMap;
import java.util.concurrent.Callable;
import java.util.concurrent.ExecutorService;
import java.util.concurrent.Executors;
import java.util.concurrent.Future;
import java.util.stream.Stream;

/**
 * Gives the classes of folders, and seeded mutations of them, to HotSpot's verifier and to the program, and prints where the two
 * differ. `bench/verify/run` compiles and starts it.
 *
 * Words: the program or `-` for HotSpot alone; a folder with a folder for each main class, named as it is; a folder to work in;
 * how many mutants for each seed; the seeds.
 */
public final class Verify {
    private static final int THREADS = 2;
    private static final String WHOLE = "as it is";
    /** Of how many differences of one kind the classes are kept. */
    private static final int KEPT = 3;

    private final String program;
    private final Path work;
    private final List<Group> groups = new ArrayList<>();
    private final List<Map.Entry<Group, Target>> targets = new ArrayList<>();
    private final Map<String, Integer> counts = new TreeMap<>();
    private final Map<String, Integer> kinds = new TreeMap<>();
    private final Map<String, String> examples = new HashMap<>();
    private final List<String> differences = new ArrayList<>();

    /** The classes of one folder, of which that of its name is the main class. */
    private record Group(String main, Map<String, byte[]> classes, List<Target> targets) {
    }

    /** A method with code, by the number of the method in its class. */
    private record Target(String name, int method) {
    }

    /** A mutant, and what the two say of it. */
    private record Case(Group group, String name, String method, String what, byte[] bytes, Verdict hotSpot, Verdict own) {
    }

    private Verify(String program, Path folder, Path work) throws IOException {
        this.program = program;
        this.work = work;
        try (Stream<Path> paths = Files.list(folder)) {
            for (Path path : paths.sorted().toList()) {
                groups.add(read(path));
            }
        }
    }

    private static Group read(Path folder) throws IOException {
        Map<String, byte[]> classes = new TreeMap<>();
        List<Target> targets = new ArrayList<>();
        try (Stream<Path> paths = Files.walk(folder)) {
            for (Path path : paths.filter(own -> own.toString().endsWith(".class")).sorted().toList()) {
                byte[] bytes = Files.readAllBytes(path);
                ClassBytes file = new ClassBytes(bytes);
                classes.put(file.name(), bytes);
                for (int method = 0; method < file.methods.size(); method++) {
                    if (file.methods.get(method).code != null) {
                        targets.add(new Target(file.name(), method));
                    }
                }
            }
        }
        return new Group(folder.getFileName().toString(), classes, targets);
    }

    private Case judge(Program own, Group group, String name, String method, String what, byte[] bytes) throws Exception {
        Map<String, byte[]> classes = new HashMap<>(group.classes);
        classes.put(name, bytes);
        Verdict hotSpot = HotSpot.judge(classes, what.equals(WHOLE) ? group.classes.keySet() : Set.of(name));
        Verdict verdict = own == null ? hotSpot : own.judge(group.main, group.classes, name, bytes);
        return new Case(group, name, method, what, bytes, hotSpot, verdict);
    }

    /** The classes as they are; and each with no bytes, which shows that the program loads it. Only what both accept is mutated. */
    private List<Case> whole(Program own) throws Exception {
        List<Case> cases = new ArrayList<>();
        for (Group group : groups) {
            Case whole = judge(own, group, group.main, "", WHOLE, group.classes.get(group.main));
            cases.add(whole);
            if (!whole.hotSpot.refuses() && !whole.own.refuses()) {
                group.targets.forEach(target -> targets.add(Map.entry(group, target)));
            }
            for (String name : group.classes.keySet()) {
                if (own != null && !own.judge(group.main, group.classes, name, new byte[0]).refuses()) {
                    System.out.println("not loaded: " + group.main + " " + name);
                }
            }
        }
        return cases;
    }

    private List<Case> mutants(Program own, long seed, int count) throws Exception {
        Random random = new Random(seed);
        List<Case> cases = new ArrayList<>();
        while (cases.size() < count) {
            Map.Entry<Group, Target> chosen = targets.get(random.nextInt(targets.size()));
            Group group = chosen.getKey();
            Target target = chosen.getValue();
            byte[] before = group.classes.get(target.name);
            ClassBytes file = new ClassBytes(before);
            ClassBytes.Method method = file.methods.get(target.method);
            String what = Mutation.apply(file, method.code, random);
            byte[] bytes = file.bytes();
            if (!Arrays.equals(bytes, before) && !what.isEmpty()) {
                cases.add(judge(own, group, target.name, file.nameOf(method), "seed " + seed + ": " + what, bytes));
            }
        }
        return cases;
    }

    /** What the two verdicts are, without names and numbers, and which names the later place. */
    private static String kindOf(Case own) {
        String hotSpot = own.hotSpot.text().replaceAll("'[^']*'", "_").replaceAll("-?\\d+", "N").replaceAll("\\(.*", "");
        String said = own.own.kind() == Verdict.Kind.OTHER ? own.own.text().replaceAll("(cbvm: E\\d).*", "$1") : own.own.kind().toString();
        int from = own.hotSpot.place();
        boolean isPlaced = own.own.place() >= 0 && from >= 0;
        String where = !isPlaced ? "" : from == own.own.place() ? " same place" : from > own.own.place() ? " later" : " earlier";
        return said + " | " + hotSpot + where;
    }

    /** HotSpot names the frame at which a flow arrives, or the end of the code, where the program names the instruction before. */
    private static boolean isFlow(Case own) throws IOException {
        ClassBytes file = new ClassBytes(own.bytes);
        for (ClassBytes.Method method : file.methods) {
            if (method.code != null && file.nameOf(method).equals(own.own.method())) {
                return method.code.leads(own.own.place(), own.hotSpot.place(), own.hotSpot.text());
            }
        }
        return false;
    }

    private static String outcome(Case own) throws IOException {
        boolean compared = own.own.kind() != Verdict.Kind.OTHER;
        if (!compared) {
            String kind = own.own.text().replaceAll("(cbvm: E\\d).*", "$1");
            return "not compared: " + kind + (own.hotSpot.refuses() ? ", HotSpot refuses" : ", HotSpot accepts");
        }
        if (!own.own.refuses()) {
            return own.hotSpot.refuses() ? "HotSpot alone refuses" : "both accept";
        }
        if (!own.hotSpot.refuses()) {
            return "cbvm alone refuses";
        }
        boolean isOther = !own.method.isEmpty() && !own.own.method().equals(own.method);
        return isOther ? "both refuse, cbvm another method" : own.hotSpot.place() < 0 ? "both refuse, HotSpot without a place"
            : own.hotSpot.place() == own.own.place() ? "both refuse, same place"
            : isFlow(own) ? "both refuse, HotSpot at the frame, cbvm at what leads to it" : "both refuse, other places";
    }

    private void count(Case own) throws IOException {
        String outcome = outcome(own);
        counts.merge(outcome, 1, Integer::sum);
        boolean isSame = outcome.equals("both accept") || outcome.equals("both refuse, same place") || outcome.startsWith("not compared")
            && !(outcome.contains("E2") && outcome.endsWith("accepts"));
        if (isSame) {
            return;
        }
        String kind = outcome + " | " + kindOf(own);
        int number = kinds.merge(kind, 1, Integer::sum);
        String line = outcome + ": " + own.group.main + " " + own.name + " " + own.method + ": " + own.what
            + " | " + own.hotSpot.said() + " | " + own.own.said();
        examples.putIfAbsent(kind, line);
        differences.add(line);
        if (number <= KEPT) {
            keep(own, work.resolve("kept/" + Integer.toHexString(kind.hashCode()) + "-" + number), line);
        }
    }

    private static void keep(Case own, Path at, String line) throws IOException {
        for (Map.Entry<String, byte[]> entry : own.group.classes.entrySet()) {
            Path file = at.resolve(entry.getKey() + ".class");
            Files.createDirectories(file.getParent());
            Files.write(file, entry.getKey().equals(own.name) ? own.bytes : entry.getValue());
        }
        Files.writeString(at.resolve("line"), line + "\n");
    }

    private void print() throws IOException {
        Files.write(work.resolve("differences"), differences);
        counts.forEach((outcome, number) -> System.out.println(number + " " + outcome));
        System.out.println("kinds of difference, each with one example:");
        kinds.entrySet().stream().sorted((one, other) -> other.getValue() - one.getValue())
            .forEach(entry -> System.out.println(entry.getValue() + " " + entry.getKey() + "\n    " + examples.get(entry.getKey())));
    }

    public static void main(String[] words) throws Exception {
        Path work = Path.of(words[2]);
        Verify verify = new Verify(words[0], Path.of(words[1]), work);
        ExecutorService threads = Executors.newFixedThreadPool(THREADS);
        List<Callable<List<Case>>> tasks = new ArrayList<>();
        for (int i = 4; i < words.length; i++) {
            long seed = Long.parseLong(words[i]);
            int number = i;
            tasks.add(() -> verify.mutants(verify.own(number), seed, Integer.parseInt(words[3])));
        }
        try {
            for (Case own : verify.whole(verify.own(0))) {
                verify.count(own);
            }
            for (Future<List<Case>> done : threads.invokeAll(tasks)) {
                for (Case own : done.get()) {
                    verify.count(own);
                }
            }
        } finally {
            threads.shutdown();
        }
        verify.print();
    }

    private Program own(int number) throws IOException {
        return program.equals("-") ? null : new Program(program, work.resolve("run" + number));
    }
}
