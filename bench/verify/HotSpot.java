import java.util.Map;
import java.util.Set;

/** Links classes of a folder with a loader of its own, without initialising them. */
final class HotSpot extends ClassLoader {
    private final Map<String, byte[]> classes;

    private HotSpot(Map<String, byte[]> classes) {
        super(ClassLoader.getPlatformClassLoader());
        this.classes = classes;
    }

    @Override
    protected Class<?> findClass(String name) throws ClassNotFoundException {
        byte[] bytes = classes.get(name.replace('.', '/'));
        if (bytes == null) {
            throw new ClassNotFoundException(name);
        }
        return defineClass(null, bytes, 0, bytes.length);
    }

    /** What HotSpot says of classes by name, of the first that it refuses; the question for a class's fields links it. */
    static Verdict judge(Map<String, byte[]> classes, Set<String> names) {
        HotSpot loader = new HotSpot(classes);
        try {
            for (String name : names) {
                Class.forName(name.replace('/', '.'), false, loader).getDeclaredFields();
            }
            return Verdict.accepted();
        } catch (LinkageError | ClassNotFoundException thrown) {
            return Verdict.ofError(thrown);
        }
    }
}
