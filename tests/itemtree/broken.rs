fn before() {}
) fn between() {}
const NAME: &str = "never closed;
