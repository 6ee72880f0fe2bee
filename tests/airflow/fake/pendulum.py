"""As much of pendulum as is used beside it."""


def instance(moment):
    return moment
