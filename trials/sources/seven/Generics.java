package generics;

import java.util.ArrayList;
import java.util.Collections;
import java.util.Comparator;
import java.util.HashMap;
import java.util.Iterator;
import java.util.List;
import java.util.Map;

/** Generic classes within generic classes, bounds and wildcards. */
public class Generics<K extends Comparable<? super K>, V> implements Iterable<Map.Entry<K, List<? extends V>>> {
    private final Map<K, List<? extends V>> map = new HashMap<>();

    class Node<N extends Number & Comparable<N>> {
        N value;
        Node<? super N> next;

        class Leaf<L extends List<? super V[]>> {
            L[] leaves;
            Map<Node<N>.Leaf<L>, Generics<K, V>.Node<N>> all;
        }
    }

    static <T extends Object & Comparable<? super T>> T largest(List<? extends T> values) {
        return Collections.max(values, new Comparator<T>() {
            @Override
            public int compare(T left, T right) {
                return left.compareTo(right);
            }
        });
    }

    <E extends Exception> void raise(E error) throws E {
        throw error;
    }

    @Override
    public Iterator<Map.Entry<K, List<? extends V>>> iterator() {
        return map.entrySet().iterator();
    }

    @SafeVarargs
    static <T> List<T> of(T... values) {
        List<T> list = new ArrayList<T>();
        for (T value : values) {
            list.add(value);
        }
        return list;
    }
}

abstract class Bridge<T> implements Comparable<Bridge<T>> {
    abstract T get(T value);
}

final class StringBridge extends Bridge<String> {
    @Override
    String get(String value) {
        return value.trim();
    }

    @Override
    public int compareTo(Bridge<String> other) {
        return 0;
    }
}
