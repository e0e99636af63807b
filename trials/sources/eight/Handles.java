package handles;

import java.lang.invoke.MethodHandle;
import java.lang.invoke.MethodHandles;
import java.lang.invoke.MethodType;
import java.util.concurrent.CompletableFuture;

/** Calls by handles, whose types come from the place of the call. */
class Handles {
    private static final MethodHandle MOST;

    static {
        try {
            MOST = MethodHandles.lookup().findStatic(Math.class, "max", MethodType.methodType(long.class, long.class, long.class));
        } catch (ReflectiveOperationException error) {
            throw new ExceptionInInitializerError(error);
        }
    }

    static long most(long left, long right) throws Throwable {
        return (long) MOST.invokeExact(left, right);
    }

    static Object loose(int left, short right) throws Throwable {
        return MOST.invoke(left, right);
    }

    static CompletableFuture<Long> later(long number) {
        return CompletableFuture.supplyAsync(() -> number * 4_294_967_296L).thenApply(Math::negateExact).exceptionally(error -> 0L);
    }
}
