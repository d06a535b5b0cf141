abstract class Task implements Comparable<Task> {
    interface Clock { long now(); default long later(long by) { return now() + by; } }
    private static long moment;
    private final long due;
    private Task next;
    private Task(long due) { this.due = due; }
    abstract boolean run() throws Exception;
    public int compareTo(Task other) { return due < other.due ? -1 : due == other.due ? 0 : 1; }
    Task insert(Task task) {
        if (task == null || task.compareTo(this) > 0) {
            next = next == null ? task : next.insert(task);
            return this;
        }
        task.next = this;
        return task;
    }
    static Task at(final long due, final String word) {
        final Clock clock = new Clock() { public long now() { return moment++; } };
        return new Task(due) {
            private int left = word.length();
            boolean run() throws Exception {
                if (left-- == 0) throw new Exception(word);
                return clock.later(due) > 3 * due;
            }
        };
    }
    public static void main(String[] args) {
        Task queue = at(5, "b").insert(at(3, "a"));
        while (queue != null) {
            try {
                if (queue.run()) queue = queue.next;
            } catch (Exception e) {
                System.out.println(e.getMessage());
                queue = queue.next;
            }
        }
    }
}
