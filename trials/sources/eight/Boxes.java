package boxes;

import java.util.Optional;
import java.util.function.Function;

/** Functions over generic boxes. */
interface Box<T> extends Function<Function<? super T, ?>, Object> {
    static <T> Box<T> holding(T value) {
        return use -> use.apply(value);
    }

    default <U> Box<U> map(Function<? super T, ? extends U> change) {
        return use -> apply(value -> use.apply(change.apply(value)));
    }
}

class Outer<A> {
    class Middle<B> {
        class Inner<C extends Box<? super A>> {
            Optional<Outer<A>.Middle<B>.Inner<C>> self = Optional.of(this);

            <D extends Throwable> Outer<D>.Middle<C> turn(D thrown) throws D {
                return new Outer<D>().new Middle<C>();
            }
        }
    }
}

class Cells {
    static long sum(Box<Long> box) {
        long[] sum = {0L};
        box.map(value -> value + 0x7fffffffffL).apply(value -> sum[0] += value);
        return sum[0];
    }
}
