"""Answers with status 503 if a request got no memory for a hash. Add `django_busy.BusyMiddleware` to the setting MIDDLEWARE."""

from argon2_proved import Busy, Error
from django.http import HttpResponse


class BusyMiddleware:
    """Answers requests whose hash waited too long for memory, or got no memory from the system."""

    def __init__(self, get_response):
        self.get_response = get_response

    def __call__(self, request):
        return self.get_response(request)

    def process_exception(self, request, exception):
        """Returns the answer to an exception of a view, or None if the exception has another cause."""
        if isinstance(exception, Busy) or isinstance(exception, Error) and exception.name == "OUT_OF_MEMORY":
            return HttpResponse("Too many users log in at once. Try again in a minute.", status=503, headers={"Retry-After": "60"})
        return None
