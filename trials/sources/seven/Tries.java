package tries;

import java.io.ByteArrayInputStream;
import java.io.Closeable;
import java.io.IOException;
import java.io.InputStream;

/** Exceptions, finally, and resources. */
public class Tries {
    static class Refused extends Exception {
        private static final long serialVersionUID = -8877665544332211L;
        final int code;

        Refused(int code, Throwable cause) {
            super("refused " + code, cause);
            this.code = code;
        }
    }

    static final class Held implements Closeable {
        @Override
        public void close() throws IOException {
            throw new IOException("held");
        }
    }

    int nested(byte[] bytes) throws Refused {
        int total = 0;
        try {
            try (InputStream input = new ByteArrayInputStream(bytes); Held held = new Held()) {
                total += input.read();
            } finally {
                total += 1;
            }
        } catch (IOException | IllegalStateException error) {
            throw new Refused(total, error);
        } catch (RuntimeException error) {
            return -1;
        } finally {
            total *= 2;
        }
        return total;
    }

    synchronized int locked() {
        synchronized (this) {
            synchronized (Tries.class) {
                return hashCode();
            }
        }
    }

    static void asserts(int number) {
        assert number > 0 : "number " + number;
    }
}
