echo "hello {{ ds }} {{ params.who }}"
