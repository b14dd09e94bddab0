/* Runs a command and measures it, for `make bench`.

     measured RESULT WORD..

   RESULT gets the seconds that the command took, and the most KiB that were resident. The status is the
   command's, or 127. This program is small: what a process counts as its own begins with the size of the
   one that started it, and that of Python is 14 MB. */

#include <stdio.h>
#include <sys/resource.h>
#include <sys/wait.h>
#include <time.h>
#include <unistd.h>

int main(int count, char **words)
{
	struct timespec begin, end;
	struct rusage usage;
	int status;
	pid_t child;
	FILE *result;

	if (count < 3)
		return 127;
	clock_gettime(CLOCK_MONOTONIC, &begin);
	child = fork();
	if (child == 0) {
		execvp(words[2], words + 2);
		_exit(127);
	}
	if (child < 0 || wait4(child, &status, 0, &usage) < 0)
		return 127;
	clock_gettime(CLOCK_MONOTONIC, &end);
	result = fopen(words[1], "w");
	if (!result)
		return 127;
	fprintf(result, "%.6f %ld\n", (double)(end.tv_sec - begin.tv_sec) + (end.tv_nsec - begin.tv_nsec) / 1e9,
	        usage.ru_maxrss);
	fclose(result);
	return WIFEXITED(status) ? WEXITSTATUS(status) : 127;
}
