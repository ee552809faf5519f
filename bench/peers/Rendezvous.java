import java.util.concurrent.SynchronousQueue;

/** A client calls a server, whose service adds to a shared total: two threads, and a queue without room each way. */
public class Rendezvous {
    private static final SynchronousQueue<Integer> CALLS = new SynchronousQueue<>();
    private static final SynchronousQueue<Integer> REPLIES = new SynchronousQueue<>();
    private static int total = 0;

    private static void serve() {
        try {
            while (true) {
                total += CALLS.take();
                REPLIES.put(total);
            }
        } catch (InterruptedException ended) {
            return;
        }
    }

    public static void main(String[] words) throws InterruptedException {
        Thread server = new Thread(Rendezvous::serve);
        server.setDaemon(true);
        server.start();
        int last = 0;
        for (int i = 1; i <= Integer.parseInt(words[0]); i++) {
            CALLS.put(i % 10);
            last = REPLIES.take();
        }
        System.out.println(last);
    }
}
