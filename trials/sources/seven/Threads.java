package threads;

import java.util.ArrayDeque;
import java.util.Deque;
import java.util.concurrent.Callable;
import java.util.concurrent.atomic.AtomicLong;

/** Anonymous classes in fields, constructors and static code. */
class Threads {
    private final Deque<Runnable> queue = new ArrayDeque<>();
    private static final AtomicLong COUNT = new AtomicLong(1L << 33);

    static final Callable<Long> NEXT = new Callable<Long>() {
        @Override
        public Long call() {
            return COUNT.incrementAndGet();
        }
    };

    private final Runnable wait = new Runnable() {
        @Override
        public void run() {
            synchronized (queue) {
                try {
                    while (queue.isEmpty()) {
                        queue.wait(1000L);
                    }
                } catch (InterruptedException stopped) {
                    Thread.currentThread().interrupt();
                }
            }
        }
    };

    Threads(final String name) {
        new Thread(name) {
            @Override
            public void run() {
                wait.run();
            }
        }.start();
    }
}
