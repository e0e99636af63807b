package marks;

import java.lang.annotation.Documented;
import java.lang.annotation.ElementType;
import java.lang.annotation.Inherited;
import java.lang.annotation.Retention;
import java.lang.annotation.RetentionPolicy;
import java.lang.annotation.Target;

/** Annotations of all retentions, with values of each sort. */
@Documented
@Inherited
@Retention(RetentionPolicy.RUNTIME)
@Target({ElementType.TYPE, ElementType.METHOD, ElementType.PARAMETER, ElementType.FIELD})
@interface Mark {
    int number() default 7;

    long large() default Long.MIN_VALUE;

    double ratio() default Math.PI;

    float small() default Float.MIN_VALUE;

    char letter() default '\uffff';

    byte octet() default -1;

    short brief() default 300;

    boolean is() default true;

    String[] texts() default {"", "a\0b", "\ud83d\ude00"};

    Class<?> type() default Object[].class;

    Class<?>[] types() default {int.class, void.class, long[][].class};

    ElementType element() default ElementType.FIELD;

    Inside inside() default @Inside;

    Inside[] many() default {@Inside(1), @Inside(2)};
}

@Retention(RetentionPolicy.CLASS)
@interface Inside {
    int value() default 0;
}

@Retention(RetentionPolicy.SOURCE)
@interface Forgotten {
}

@Mark(number = 9, texts = "one", many = {})
@Forgotten
@Inside(5)
class Marked {
    @Mark
    @Deprecated
    int field;

    @Mark(large = 1L << 62, type = String.class)
    void method(@Mark int first, int second, @Inside(3) @Mark(is = false) String third) {
    }
}
