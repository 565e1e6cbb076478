"""How long a script waits."""

# After so many seconds a script gives up what does not go on. Nothing that works takes nearly as
# long.
PATIENCE = 300
