// Four threads, each of which adds to a number of its own on the heap.
public class Sums {
    static class Tally { volatile long sum; }
    public static void main(String[] words) throws Exception {
        Tally[] counts = new Tally[4];
        Thread[] threads = new Thread[4];
        for (int i = 0; i < 4; i++) {
            Tally own = counts[i] = new Tally();
            threads[i] = new Thread(() -> { for (int n = 0; n < 2000; n++) own.sum++; });
        }
        for (Thread it : threads) it.start();
        for (Thread it : threads) it.join();
        long all = 0;
        for (Tally it : counts) all += it.sum;
        System.out.println("sum " + all);
    }
}
