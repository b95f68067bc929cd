/* user_time COMMAND..: runs a command, with what it prints thrown away, and prints the user time it took, in microseconds. */
#include <fcntl.h>
#include <stdio.h>
#include <sys/resource.h>
#include <sys/wait.h>
#include <unistd.h>

static void run(char **command)
{
	const int sink = open("/dev/null", O_WRONLY);

	if (sink >= 0 && dup2(sink, STDOUT_FILENO) >= 0)
		execvp(command[0], command);
	perror(command[0]);
	_exit(127);
}

int main(int argc, char **argv)
{
	struct rusage usage;
	int status;
	pid_t child;

	if (argc < 2) {
		fputs("usage: user_time COMMAND..\n", stderr);
		return 2;
	}
	child = fork();
	if (child == 0)
		run(argv + 1);
	if (child < 0 || waitpid(child, &status, 0) != child || !WIFEXITED(status) || WEXITSTATUS(status) != 0)
		return 1;
	getrusage(RUSAGE_CHILDREN, &usage);
	printf("%lld\n", (long long)usage.ru_utime.tv_sec * 1000000 + usage.ru_utime.tv_usec);
	return 0;
}
